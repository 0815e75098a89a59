# Completion of the words of privctl(1) for bash: the order, its options, and behind it what a device has: labels, users.
_privctl() {
    local line=${COMP_LINE:0:COMP_POINT} offered='' words at word front
    local orders='may explain who users packages apps buckets status level export plan import-cynara log help'
    # The words as the program is given them: bash parts them at a colon as well.
    read -ra words <<<"$line"
    [[ $line == *' ' ]] && words+=('')
    at=$((${#words[@]} - 1))
    word=${words[at]}
    COMPREPLY=()
    case $at-${words[1]}-${words[at - 1]} in
    1-*) offered="$orders --help --version" ;;
    *---store)
        mapfile -t COMPREPLY < <(compgen -d -- "$word")
        return 0
        ;;
    *---user | *---by | *-level-get | *-level-set) offered=$(cut -d : -f 3 /etc/passwd) ;;
    *---result) offered='allow deny' ;;
    *---timeout) offered='5 60' ;;
    *---since) offered=$(date -u +%Y-%m-%d) ;;
    2-level-*) offered='get set' ;;
    2-help-*) offered=$orders ;;
    *-may-*) offered='-q --quiet --json --timeout System User User::Pkg:: http://tizen.org/privilege/' ;;
    *-explain-*) offered='--store --timeout System User User::Pkg:: http://tizen.org/privilege/' ;;
    *-who-*) offered='--user --store --timeout http://tizen.org/privilege/' ;;
    *-level-*)
        offered='--timeout User::Pkg:: http://tizen.org/privilege/ allow ask deny unset'
        [ "${words[2]}" = get ] && offered='--store --timeout'
        [ "${words[2]}" = set ] && offered="--by $offered"
        ;;
    *-plan-*)
        mapfile -t COMPREPLY < <(compgen -f -W '--store --timeout' -- "$word")
        return 0
        ;;
    *-import-cynara-*)
        mapfile -t COMPREPLY < <(compgen -d -- "$word")
        return 0
        ;;
    *-log-*)
        mapfile -t COMPREPLY < <(compgen -f -W '--json -f --follow --client --user --privilege --result --since' -- "$word")
        return 0
        ;;
    *) offered='--store --timeout' ;;
    esac
    mapfile -t COMPREPLY < <(compgen -W "$offered" -- "$word")
    # What it completes is what stands behind the last colon.
    front=${word%"${word##*:}"}
    [[ $COMP_WORDBREAKS == *:* ]] && COMPREPLY=("${COMPREPLY[@]#"$front"}")
    return 0
}
complete -F _privctl privctl
