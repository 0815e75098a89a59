"""The lines of a script in plain Python: which there are, and what each asks for."""

import functools

from smack_model import is_label, is_request, template_rule_of

DENY, NONE, BUCKET, ALLOW = 0, 1, 65534, 65535
PLAIN_RESULTS = {b"deny": DENY, b"none": NONE, b"allow": ALLOW}
USER_TYPES = (b"system", b"admin", b"normal", b"guest")
LEVELS = (b"allow", b"ask", b"deny", b"unset")
IN_NAMES = b"ABCDEFGHIJKLMNOPQRSTUVWXYZabcdefghijklmnopqrstuvwxyz0123456789"
ROOT = b""
MOST_TEMPLATE_LINES = 64
# Lines that are known in scripts for the program's own folder alone, and in those for a service alone.
OF_LOCAL = ("access", "status", "level", "levels", "audit", "share", "unshare", "shares")
OF_ADMIN = ("stop",)


def is_printable(word, most):
    return len(word) <= most and all(0x21 <= byte <= 0x7E and byte != ord(";") for byte in word)


def is_name(word):
    return word not in (b"", b"*", b"#") and is_printable(word, 255)


def is_name_or(marks):
    return lambda word: word in marks or is_name(word)


def is_ident(word):
    return 1 <= len(word) <= 100 and word[0:1] not in (b".", b"-") and all(byte in IN_NAMES + b"._-" for byte in word)


def number_of(word, least, most):
    """The number that a word writes in decimal, without a sign and without a zero in front, or None."""
    if not word or any(byte not in b"0123456789" for byte in word) or word != b"0" and word[0:1] == b"0" or len(word) > 10:
        return None
    return int(word) if least <= int(word) <= most else None


def uid_of(word):
    return number_of(word, 0, 4_294_967_295)


def scope_of(word):
    """`*`, a uid, or None."""
    return b"*" if word == b"*" else uid_of(word)


def bucket_of(word):
    """A bucket's name, which is empty for the root, or None."""
    if word == b".":
        return ROOT
    return word if 1 <= len(word) <= 64 and all(byte in IN_NAMES + b"_-" for byte in word) else None


def result_of(word):
    """A result as its kind and metadata, or None."""
    if word in PLAIN_RESULTS:
        return PLAIN_RESULTS[word], b""
    match word.split(b":", 1):
        case [b"bucket", name]:
            bucket = bucket_of(name)
            return None if bucket is None else (BUCKET, bucket)
        case [b"agent", rest] if b":" in rest:
            number, metadata = rest.split(b":", 1)
            kind = number_of(number, 2, 65533)
            return None if kind is None or not is_printable(metadata, 255) else (kind, metadata)
    return None


def change_of(words):
    """What a `set` or an `unset` changes: the bucket, the key, and the result, which is None for an `unset`. Or None."""
    match words:
        case [b"set", bucket, client, user, privilege, result]:
            result = result_of(result)
            is_known = result is not None
        case [b"unset", bucket, client, user, privilege]:
            result, is_known = None, True
        case _:
            return None
    bucket, key = bucket_of(bucket), (client, user, privilege)
    if bucket is None or not is_known or not all(map(is_name_or((b"*",)), key)):
        return None
    return bucket, key, result


def is_level(words):
    """Whether these are an application, a privilege and a level."""
    return len(words) == 3 and all(map(is_name, words[:2])) and words[2] in LEVELS


@functools.lru_cache
def step_of(line):
    """What a line outside a block asks for, as a tuple of a word and its arguments, or None where there is no such line."""
    words = line.split(b" ")
    match words:
        case [b"set" | b"unset", *_]:
            change = change_of(words)
            return None if change is None else ("change", [change])
        case [b"bucket", bucket, fallback] if bucket_of(bucket) is not None and result_of(fallback) is not None:
            return "bucket", bucket_of(bucket), result_of(fallback)
        case [b"drop", bucket] if bucket_of(bucket) is not None:
            return "drop", bucket_of(bucket)
        case [b"erase" | b"list" as word, bucket, *filters] if bucket_of(bucket) is not None and len(filters) == 3:
            return (word.decode(), bucket_of(bucket), filters) if all(map(is_name_or((b"*", b"#")), filters)) else None
        case [b"check", *question] if len(question) == 3 and all(map(is_name, question)):
            return "evaluate", ROOT, True, question
        case [b"from", bucket, b"deep" | b"flat" as mode, *question] if bucket_of(bucket) is not None and len(question) == 3:
            return ("evaluate", bucket_of(bucket), mode == b"deep", question) if all(map(is_name, question)) else None
        case [b"layout" | b"status" | b"stop" | b"shares" as word]:
            return (word.decode(),)
        case [b"user", uid, kind] if uid_of(uid) is not None and kind in USER_TYPES:
            return "user", uid_of(uid), kind
        case [b"nouser", uid] if uid_of(uid) is not None:
            return "nouser", uid_of(uid)
        case [b"install" | b"hybrid" as word, package, author, app, scope, *privileges]:
            is_known = is_ident(package) and (author == b"-" or is_ident(author)) and is_ident(app)
            if not is_known or scope_of(scope) is None or not all(map(is_name, privileges)):
                return None
            return word.decode(), package, None if author == b"-" else author, app, scope_of(scope), set(privileges)
        case [b"convert", package, b"hybrid" | b"plain" as kind] if is_ident(package):
            return "convert", package, kind == b"hybrid"
        case [b"remove", app, scope] if is_ident(app) and scope_of(scope) is not None:
            return "remove", app, scope_of(scope)
        case [b"access", subject, object_, modes] if is_label(subject) and is_label(object_) and is_request(modes):
            return "access", subject, object_, modes
        case [b"level", caller, b"own", *words] if uid_of(caller) is not None and is_level(words):
            return "level", uid_of(caller), None, *words
        case [b"level", caller, b"admin", uid, *words] if uid_of(caller) is not None and uid_of(uid) is not None and is_level(words):
            return "level", uid_of(caller), uid_of(uid), *words
        case [b"levels", uid] if uid_of(uid) is not None:
            return "levels", uid_of(uid)
        case [b"audit", user] if is_name(user):
            return "audit", user
        case [b"share" | b"unshare" as word, *names] if len(names) == 3 and all(map(is_ident, names)):
            return word.decode(), *names
    return None


class Reader:
    """Takes the lines of a script in turn. A line that opens a block, one within it, a blank line and a comment ask for
    nothing."""

    def __init__(self, place="local"):
        self.unknown = OF_ADMIN if place == "local" else OF_LOCAL
        self.block = None
        self.within = []

    def step(self, line):
        """What the line asks for, `()` for nothing, or None where it is outside the grammar."""
        if self.block == b"template":
            return self.template_step(line)
        if line == b"" or line[0:1] == b"#":
            return ()
        if self.block == b"batch":
            return self.batch_step(line)
        if line in (b"batch", b"template"):
            self.block, self.within = line, []
            return ()
        step = step_of(line)
        return None if step and step[0] in self.unknown else step

    def batch_step(self, line):
        if line == b"end":
            self.block = None
            return "change", self.within
        change = change_of(line.split(b" "))
        self.within.append(change)
        return None if change is None else ()

    def template_step(self, line):
        if line == b"end":
            self.block = None
            return "template", self.within
        rule = template_rule_of(line)
        self.within.append(rule)
        return None if rule is None or len(self.within) > MOST_TEMPLATE_LINES else ()
