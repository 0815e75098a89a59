"""The policies, users and installs of a device in plain Python: what each command makes of them, which rule refuses it, and
what a question is answered."""

from typing import NamedTuple

from level_model import Levels, Refused, Shares
from script_model import ALLOW, BUCKET, DENY, NONE, ROOT
from smack_model import USUAL_TEMPLATE, decision_text, expanded, label_of

LIMITS = {
    "commits": 18_446_744_073_709_551_615,
    "users": 64,
    "packages": 1_024,
    "installs": 8_192,
    "grants": 65_536,
    "buckets": 1024,
    "policies": 65_536,
}
ANY = (b"*", b"*", b"*")
MAIN, MANIFESTS, ADMIN = b"MAIN", b"MANIFESTS", b"ADMIN"
TYPE_BUCKETS = {kind: b"USER_TYPE_" + kind.upper() for kind in (b"system", b"admin", b"normal", b"guest")}
KEPT_BUCKETS = (MAIN, MANIFESTS)
BUILT_IN = (*KEPT_BUCKETS, ADMIN, *TYPE_BUCKETS.values())


def bucket_text(name):
    return b"." if name == ROOT else name


def result_text(result):
    kind, metadata = result
    if kind == BUCKET:
        return b"bucket:" + bucket_text(metadata)
    plain = {DENY: b"deny", NONE: b"none", ALLOW: b"allow"}
    return plain.get(kind) or b"agent:%d:%s" % (kind, metadata)


def admits(filters, key):
    return all(own == b"#" or own == text for own, text in zip(filters, key))


class Install(NamedTuple):
    package: bytes
    author: bytes | None
    privileges: set
    hybrid: bool = False


def install_label(app, install):
    return label_of(install.package, app if install.hybrid else None)


class Device(Levels, Shares):
    def __init__(self):
        self.commit = 0
        self.fallbacks = {ROOT: (DENY, b"")}
        self.policies = {ROOT: {}}
        self.users = {}
        # (application, scope) to what is installed
        self.installs = {}
        self.template = USUAL_TEMPLATE
        # (owner, target, name) to how often the share is open
        self.shares = {}

    # ---- answers

    def answer(self, step):
        """The lines that answer a step."""
        word, *words = step
        try:
            return getattr(self, "do_" + word)(*words)
        except Refused as refused:
            return [refused.text]

    def done(self, *words):
        self.commit += 1
        self.settle()
        return [b" ".join([b"ok %d" % self.commit, *words])]

    def do_status(self):
        return [b"commit %d" % self.commit]

    def do_list(self, bucket, filters):
        self.expect_bucket(bucket)
        rows = [
            b"row %s %s" % (b" ".join(key), result_text(result))
            for key, result in sorted(self.policies[bucket].items())
            if admits(filters, key)
        ]
        return [*rows, b"rows %d" % len(rows)]

    def do_evaluate(self, bucket, deep, question):
        self.expect_bucket(bucket)
        result, cause, key = self.evaluate(bucket, deep, question, {})
        words = [result_text(result), b"%d" % self.commit, bucket_text(cause), *(key or [b"default"])]
        return [b" ".join(words)]

    def do_access(self, subject, object_, modes):
        rules = [rule for package in sorted(self.packages()) for rule in self.package_rules(package)]
        return [decision_text(rules + self.share_rules(), subject, object_, modes)]

    def packages(self):
        return {install.package for install in self.installs.values()}

    def labels(self):
        """The label of each application, with its package."""
        return {app: (install_label(app, install), install.package) for (app, _), install in self.installs.items()}

    def package_rules(self, package):
        installs = {app: install for (app, _), install in self.installs.items() if install.package == package}
        first = next(iter(installs.values()))
        return expanded(self.template, package, first.author, installs.keys() if first.hybrid else None)

    def evaluate(self, bucket, deep, question, known):
        """The result of a bucket, with the bucket and key where it was written (the key is None for a fallback)."""
        if bucket not in known:
            found = []
            for key, result in self.policies[bucket].items():
                if not all(own in (b"*", asked) for own, asked in zip(key, question)):
                    continue
                if result[0] != BUCKET:
                    found.append((result, key, bucket, key))
                elif deep:
                    given, cause, cause_key = self.evaluate(result[1], deep, question, known)
                    found.append((given, key, cause, cause_key))
            found = [it for it in found if it[0][0] != NONE]
            if found:
                result, _, cause, cause_key = min(found, key=lambda it: it[:2])
                known[bucket] = result, cause, cause_key
            else:
                known[bucket] = self.fallbacks[bucket], bucket, None
        return known[bucket]

    # ---- rules

    def has_layout(self):
        return MAIN in self.policies

    def expect_layout(self):
        if not self.has_layout():
            raise Refused(3, b"no-layout")

    def expect_bucket(self, bucket):
        if bucket not in self.policies:
            raise Refused(4, b"no-bucket", bucket_text(bucket))

    def expect_own(self, bucket, reserved=KEPT_BUCKETS):
        if bucket in reserved:
            raise Refused(1, b"reserved", bucket)

    def expect_within(self, **counts):
        """None of the limits is passed, the commits' first and then the others in their order."""
        counts["commits"] = self.commit + 1
        for name, most in LIMITS.items():
            if counts.get(name, 0) > most:
                raise Refused(11, b"limit", name.encode(), b"%d" % most)

    def count(self):
        return sum(map(len, self.policies.values()))

    def expect_no_cycle(self, changed):
        """No bucket reaches itself, with these changes (a result, or None, by bucket and key) put over the policies. Only
        a change that points to a bucket can close a cycle."""
        if not any(result and result[0] == BUCKET for result in changed.values()):
            return
        targets = {}
        for bucket, policies in self.policies.items():
            for key, result in policies.items():
                if (bucket, key) not in changed and result[0] == BUCKET:
                    targets.setdefault(bucket, set()).add(result[1])
        for (bucket, _), result in changed.items():
            if result and result[0] == BUCKET:
                targets.setdefault(bucket, set()).add(result[1])
        for bucket in sorted(targets):
            seen, waiting = set(), list(targets[bucket])
            while waiting:
                reached = waiting.pop()
                if reached == bucket:
                    raise Refused(12, b"cycle", bucket_text(bucket))
                if reached not in seen:
                    seen.add(reached)
                    waiting += targets.get(reached, ())

    # ---- commands on buckets

    def do_bucket(self, name, fallback):
        self.expect_own(name, KEPT_BUCKETS if self.has_layout() else BUILT_IN)
        if fallback[0] == BUCKET or fallback[0] == NONE and name == ROOT:
            raise Refused(6, b"bad-kind", b"%d" % fallback[0])
        self.expect_within(buckets=len(self.policies.keys() | {name}))
        self.fallbacks[name] = fallback
        self.policies.setdefault(name, {})
        return self.done()

    def do_drop(self, name):
        self.expect_own(name, BUILT_IN)
        self.expect_bucket(name)
        if name == ROOT:
            raise Refused(5, b"root-bucket")
        self.expect_within()
        del self.fallbacks[name], self.policies[name]
        for policies in self.policies.values():
            for key in [key for key, result in policies.items() if result == (BUCKET, name)]:
                del policies[key]
        return self.done()

    def do_change(self, changes):
        for bucket, _, _ in changes:
            self.expect_own(bucket)
        for bucket, _, result in changes:
            self.expect_bucket(bucket)
            if result and result[0] == BUCKET:
                self.expect_bucket(result[1])
        # the last change of a key counts
        changed = {(bucket, key): result for bucket, key, result in changes}
        more = sum((result is not None) - (key in self.policies[bucket]) for (bucket, key), result in changed.items())
        self.expect_within(policies=self.count() + more)
        self.expect_no_cycle(changed)
        for (bucket, key), result in changed.items():
            self.policies[bucket].pop(key, None)
            if result is not None:
                self.policies[bucket][key] = result
        return self.done()

    def do_erase(self, bucket, filters):
        self.expect_own(bucket)
        self.expect_bucket(bucket)
        self.expect_within()
        erased = [key for key in self.policies[bucket] if admits(filters, key)]
        for key in erased:
            del self.policies[bucket][key]
        return self.done(b"erased %d" % len(erased))

    # ---- commands on the device

    def do_layout(self):
        if self.has_layout():
            raise Refused(2, b"layout-there")
        made = {name: {} for name in BUILT_IN}
        made[MAIN][ANY] = BUCKET, MANIFESTS
        for name in TYPE_BUCKETS.values():
            made[name][ANY] = BUCKET, ADMIN
        more = sum(map(len, made.values())) + (ANY not in self.policies[ROOT])
        self.expect_within(buckets=len(self.policies) + len(made), policies=self.count() + more)
        self.policies.update(made)
        self.policies[ROOT][ANY] = BUCKET, MAIN
        for name in BUILT_IN:
            self.fallbacks[name] = (DENY if name in KEPT_BUCKETS else ALLOW), b""
        return self.done()

    def do_template(self, template):
        self.expect_within()
        self.template = template
        return self.done()

    def register(self, users, installs):
        """The users and installs become these, with what they make of the two buckets that are kept for them."""
        grants = sum(len(install.privileges) for install in installs.values())
        main = {ANY: (BUCKET, MANIFESTS)}
        main.update({(b"*", b"%d" % uid, b"*"): (BUCKET, TYPE_BUCKETS[kind]) for uid, kind in users.items()})
        manifests = {
            (install_label(app, install), b"*" if scope == b"*" else b"%d" % scope, privilege): (ALLOW, b"")
            for (app, scope), install in installs.items()
            for privilege in install.privileges
        }
        others = self.count() - len(self.policies[MAIN]) - len(self.policies[MANIFESTS])
        self.expect_within(
            users=len(users),
            packages=len({install.package for install in installs.values()}),
            installs=len(installs),
            grants=grants,
            policies=others + len(main) + len(manifests),
        )
        removed = {(MAIN, key): None for key in self.policies[MAIN]}
        self.expect_no_cycle(removed | {(MAIN, key): result for key, result in main.items()})
        self.users, self.installs = users, installs
        self.policies[MAIN], self.policies[MANIFESTS] = main, manifests
        return self.done()

    def do_user(self, uid, kind):
        self.expect_layout()
        return self.register({**self.users, uid: kind}, self.installs)

    def do_nouser(self, uid):
        self.expect_layout()
        if uid not in self.users:
            raise Refused(7, b"unknown-user", b"%d" % uid)
        users = {other: kind for other, kind in self.users.items() if other != uid}
        return self.register(users, {at: install for at, install in self.installs.items() if at[1] != uid})

    def do_install(self, package, author, app, scope, privileges, hybrid=False):
        self.expect_layout()
        if scope != b"*" and scope not in self.users:
            raise Refused(7, b"unknown-user", b"%d" % scope)
        for (other, _), there in self.installs.items():
            if other == app and there.package != package:
                raise Refused(8, b"other-package", there.package)
        own = [there for there in self.installs.values() if there.package == package]
        for there in own:
            if there.author != author:
                raise Refused(9, b"other-author", there.author or b"-")
        for there in own:
            if there.hybrid != hybrid:
                raise Refused(14, b"other-hybrid", b"yes" if there.hybrid else b"no")
        install = Install(package, author, privileges, hybrid)
        return self.register(self.users, {**self.installs, (app, scope): install})

    def do_hybrid(self, package, author, app, scope, privileges):
        return self.do_install(package, author, app, scope, privileges, True)

    def do_convert(self, package, hybrid):
        self.expect_layout()
        if package not in self.packages():
            raise Refused(10, b"not-installed")
        is_own = lambda install: install.package == package
        return self.register(
            self.users,
            {at: it._replace(hybrid=hybrid) if is_own(it) else it for at, it in self.installs.items()},
        )

    def do_remove(self, app, scope):
        self.expect_layout()
        if (app, scope) not in self.installs:
            raise Refused(10, b"not-installed")
        return self.register(self.users, {at: install for at, install in self.installs.items() if at != (app, scope)})
