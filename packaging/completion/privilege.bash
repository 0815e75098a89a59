# Completion of the words of privilege(1) for bash: the command, and behind it what a device has: labels, users, modes.
_privilege() {
    local line=${COMP_LINE:0:COMP_POINT} offered='' words at word front
    # The words as the program is given them: bash parts them at a colon as well.
    read -ra words <<<"$line"
    [[ $line == *' ' ]] && words+=('')
    at=$((${#words[@]} - 1))
    word=${words[at]}
    COMPREPLY=()
    case $at-${words[1]} in
    1-*) offered='admin agent check local sample serve simple smack-access smack-load watch' ;;
    2-serve | 2-watch) offered='1 2 4 8 16 32 64' ;;
    2-check | 2-simple) offered='System User User::Pkg::' ;;
    4-check | 4-simple) offered=$(cut -d : -f 3 /etc/passwd) ;;
    5-check | 5-simple) offered=http://tizen.org/privilege/ ;;
    2-agent) offered=10 ;;
    3-agent) offered='allow deny' ;;
    2-smack-access | 3-smack-access) offered='_ ^ System User User::Home User::Pkg::' ;;
    4-smack-access) offered='r w x a t l rx rw rwx rwxat rwxatl' ;;
    esac
    mapfile -t COMPREPLY < <(compgen -W "$offered" -- "$word")
    # What it completes is what stands behind the last colon.
    front=${word%"${word##*:}"}
    [[ $COMP_WORDBREAKS == *:* ]] && COMPREPLY=("${COMPREPLY[@]#"$front"}")
    return 0
}
complete -F _privilege privilege
