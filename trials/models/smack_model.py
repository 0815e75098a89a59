"""Smack in plain Python: labels, mode words, rules, templates, and the decision on a request."""

MODES = b"rwxatlb"
PLACEHOLDERS = (b"~PROCESS~", b"~PATH_RW~", b"~PATH_RO~", b"~AUTHOR~")


def is_label(word):
    if not 1 <= len(word) <= 255 or word[0:1] == b"-" or word in (b"@", b"?"):
        return False
    return all(0x21 <= byte <= 0x7E and byte not in b"/\\'\"" for byte in word)


def modes_of(word):
    """The set of a mode word's letters, or None."""
    if not 1 <= len(word) <= 64 or any(letter not in MODES + b"-" for letter in word.lower()):
        return None
    return set(word.lower()) - set(b"-")


def is_request(word):
    """Whether a mode word asks for something, and not for `b`."""
    modes = modes_of(word)
    return bool(modes) and ord("b") not in modes


def rule_of(line):
    """The labels and mode sets of a rule line, an empty list where it has no word, or None."""
    words = [word for word in line.replace(b"\t", b" ").split(b" ") if word]
    if not words:
        return []
    labels, modes = words[:2], [modes_of(word) for word in words[2:]]
    if not all(map(is_label, labels)) or len(modes) not in (1, 2) or None in modes:
        return None
    return labels + modes


def template_rule_of(line):
    """A line of a template, as `rule_of` gives it, or None."""
    rule = rule_of(line)
    if not rule or any(label[0:1] == b"~" and label not in PLACEHOLDERS for label in rule[:2]):
        return None
    return rule


def label_of(package, app=None):
    """The label of a package, or that of an application of its own."""
    return b"User::Pkg::" + package + (b"" if app is None else b"::App::" + app)


def expanded(template, package, author, apps=None):
    """The rules that a template gives for a package; without an author the lines that name it are left out. Of a hybrid package
    the applications are given, for each of which a line with `~PROCESS~` has a rule."""
    label = label_of(package)
    labels = {b"~PATH_RW~": label, b"~PATH_RO~": label + b"::RO"}
    if author is not None:
        labels[b"~AUTHOR~"] = b"User::Author::" + author
    for subject, object_, *modes in template:
        if author is None and b"~AUTHOR~" in (subject, object_):
            continue
        is_each = apps is not None and b"~PROCESS~" in (subject, object_)
        for process in [label_of(package, app) for app in sorted(apps)] if is_each else [label]:
            own = labels | {b"~PROCESS~": process}
            yield [own.get(subject, subject), own.get(object_, object_), *modes]


def decide(rules, subject, object_, asked):
    """Whether the request is allowed, and by which case."""
    granted = set()
    for own_subject, own_object, first, *deny in rules:
        if (own_subject, own_object) == (subject, object_):
            granted = (granted | first) - deny[0] if deny else first
    if ord("w") in granted:
        granted = granted | {ord("l")}
    reads = asked <= set(b"rx") or asked == {ord("l")}
    cases = [
        (subject == b"*", False),
        (subject == b"^" and reads, True),
        (object_ == b"_" and reads, True),
        (object_ == b"*", True),
        (subject == object_, True),
        (asked <= granted, True),
        (True, False),
    ]
    return next((allows, number) for number, (holds, allows) in enumerate(cases, 1) if holds)


def decision_text(rules, subject, object_, modes):
    allows, case = decide(rules, subject, object_, modes_of(modes))
    return b"access %s %d" % (b"allow" if allows else b"deny", case)


USUAL_TEMPLATE = [
    template_rule_of(line)
    for line in [
        b"System ~PROCESS~ rwxat",
        b"User ~PROCESS~ rwxat",
        b"~PROCESS~ System wx",
        b"~PROCESS~ User wx",
        b"~PROCESS~ User::Home rxl",
        b"System ~PATH_RW~ rwxat",
        b"~PROCESS~ ~PATH_RW~ rwxatl",
        b"System ~PATH_RO~ rwxat",
        b"~PROCESS~ ~PATH_RO~ rxl",
        b"~PROCESS~ ~AUTHOR~ rwxatl",
    ]
]
