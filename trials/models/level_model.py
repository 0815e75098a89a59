"""Levels, audits and shares in plain Python, over the policies, users and installs of a device."""

from script_model import ALLOW, DENY, ROOT
from smack_model import label_of

ASK = 10
RESULTS = {b"allow": (ALLOW, b""), b"ask": (ASK, b"ask"), b"deny": (DENY, b""), b"unset": None}
ADMINISTRATORS = (b"system", b"admin")
MOST_PAIRS = 65_536
MOST_SHARES = 4_096
MOST_OPENS = 4_294_967_295


class Refused(Exception):
    """The first rule that a line breaks: its number, and the words behind it."""

    def __init__(self, number, *words):
        self.text = b" ".join([b"refused %d" % number, *words])


class Levels:
    """What users, and administrators for them, set; and what it comes to."""

    def do_level(self, caller, target, client, privilege, level):
        self.expect_layout()
        self.expect_user(caller)
        user, bucket = caller, ROOT
        if target is not None:
            if self.users[caller] not in ADMINISTRATORS:
                raise Refused(15, b"not-administrator", self.users[caller])
            self.expect_user(target)
            user, bucket = target, b"ADMIN"
        return self.do_change([(bucket, (client, b"%d" % user, privilege), RESULTS[level])])

    def expect_user(self, uid):
        if uid not in self.users:
            raise Refused(7, b"unknown-user", b"%d" % uid)

    def do_levels(self, uid):
        levels = {result: level for level, result in RESULTS.items() if result}
        rows = [
            b"level %s %s %s" % (client, privilege, levels[result])
            for (client, user, privilege), result in sorted(self.policies[ROOT].items())
            if user == b"%d" % uid and b"*" not in (client, privilege) and result in levels
        ]
        return [*rows, b"levels %d" % len(rows)]

    def do_audit(self, user):
        labels = self.labels()
        grants = {(labels[app][0], privilege) for (app, _), install in self.installs.items() for privilege in install.privileges}
        clients, privileges = ({grant[at] for grant in grants} for at in (0, 1))
        if len(clients) * len(privileges) > MOST_PAIRS:
            raise Refused(16, b"too-many", b"%d" % (len(clients) * len(privileges)))
        rows = [
            b"allowed %s %s" % (client, privilege)
            for client in sorted(clients)
            for privilege in sorted(privileges)
            if self.evaluate(ROOT, True, (client, user, privilege), {})[0][0] == ALLOW
        ]
        return [*rows, b"pairs %d" % len(rows)]


class Shares:
    """Named places that applications share."""

    def do_share(self, owner, target, name):
        labels, count = self.labels(), self.shares.get((owner, target, name), 0)
        for app in (owner, target):
            if app not in labels:
                raise Refused(17, b"unknown-app", app)
        if labels[owner][0] == labels[target][0]:
            raise Refused(18, b"same-label", labels[owner][0])
        if count == MOST_OPENS:
            raise Refused(20, b"share-limit", b"%d" % MOST_OPENS)
        if not count and len(self.shares) == MOST_SHARES:
            raise Refused(20, b"share-limit", b"%d" % MOST_SHARES)
        self.shares[owner, target, name] = count + 1
        return [b"shared %d" % (count + 1)]

    def do_unshare(self, owner, target, name):
        if (owner, target, name) not in self.shares:
            raise Refused(19, b"not-shared")
        left = self.shares.pop((owner, target, name)) - 1
        if left:
            self.shares[owner, target, name] = left
        return [b"shared %d" % left]

    def settle(self):
        """Only shares of installed applications stay."""
        labels = self.labels()
        self.shares = {
            (owner, target, name): count
            for (owner, target, name), count in self.shares.items()
            if owner in labels and target in labels
        }

    def share_rules(self):
        labels, rules = self.labels(), []
        for owner, target, name in sorted(self.shares):
            shared = label_of(labels[owner][1]) + b"::Share::" + name
            rules.append([labels[owner][0], shared, set(b"rwxatl"), set()])
            rules.append([labels[target][0], shared, set(b"rxl"), set()])
        return rules

    def do_shares(self):
        rules = [
            b"rule %s %s %s -" % (subject, object_, bytes(letter for letter in b"rwxatl" if letter in modes))
            for subject, object_, modes, _ in self.share_rules()
        ]
        return [*rules, b"rules %d" % len(rules)]
