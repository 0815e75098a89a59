"""The commands that a service is given in a trial, each by its number, and what each question is answered at each commit, by the
model in `device_model.py`. The command of a commit follows from its number alone, so whoever knows a commit knows the state."""

import random
import struct

from device_model import Device
from script_model import ROOT, step_of
from service import ERASE, SET_BUCKET, SET_POLICIES, frame, text, texts

KIND = 10
CLIENTS, USERS, PRIVILEGES = (b"app", b"web", b"Pkg"), (b"5001", b"0"), (b"p", b"camera")
QUESTIONS = [(client, user, privilege) for client in CLIENTS for user in USERS for privilege in PRIVILEGES]
# The first commits make the buckets, and no later one takes one away.
FIRST = (
    b"bucket inner allow",
    b"bucket deep none",
    b"bucket . allow",
    b"set . * * p bucket:inner",
    b"set inner app * * bucket:deep",
)
ENDS = (b"allow", b"allow", b"deny", b"none", b"agent:%d:ask" % KIND, b"agent:%d:" % KIND)
# A bucket points to those behind it alone, so that there is no cycle.
RESULTS = {b".": (*ENDS, b"bucket:inner", b"bucket:deep"), b"inner": (*ENDS, b"bucket:deep"), b"deep": ENDS}


def line(commit):
    """The line of a script that makes this commit."""
    if commit <= len(FIRST):
        return FIRST[commit - 1]
    draw = random.Random(commit)
    bucket = draw.choice(list(RESULTS))
    key = [draw.choice((*words, b"*")) for words in (CLIENTS, USERS, PRIVILEGES)]
    chance = draw.random()
    if chance < 0.05:
        return b" ".join([b"erase", bucket, *(draw.choice((word, b"#")) for word in key)])
    if chance < 0.3:
        return b" ".join([b"unset", bucket, *key])
    return b" ".join([b"set", bucket, *key, draw.choice(RESULTS[bucket])])


def message(commit):
    """The frame that makes this commit."""
    match step_of(line(commit)):
        case ("bucket", bucket, (kind, metadata)):
            return frame(1, SET_BUCKET, text(bucket) + struct.pack(">H", kind) + text(metadata))
        case ("erase", bucket, filters):
            return frame(1, ERASE, text(bucket) + texts(filters))
        case ("change", [(bucket, key, None)]):
            return frame(1, SET_POLICIES, b"\0\0\0\1\0" + text(bucket) + texts(key))
        case ("change", [(bucket, key, (kind, metadata))]):
            result = struct.pack(">H", kind) + text(metadata)
            return frame(1, SET_POLICIES, b"\0\0\0\1\1" + text(bucket) + texts(key) + result)


class History:
    """What the questions are answered at each commit, worked out as far as it is asked for."""

    def __init__(self):
        self.device = Device()
        self.verdicts, self.erased = [self.evaluated()], [0]

    def evaluated(self):
        """For each question the kind, the metadata, the bucket and the key that decide, the key None for a fallback."""
        found = []
        for question in QUESTIONS:
            (kind, metadata), bucket, key = self.device.evaluate(ROOT, True, question, {})
            found.append((kind, metadata, bucket, key))
        return found

    def reach(self, commit):
        while len(self.verdicts) <= commit:
            (answer,) = self.device.answer(step_of(line(len(self.verdicts))))
            words = answer.split()
            assert words[0] == b"ok", (line(len(self.verdicts)), answer)
            self.erased.append(int(words[3]) if words[2:] else 0)
            self.verdicts.append(self.evaluated())

    def at(self, commit):
        self.reach(commit)
        return self.verdicts[commit]

    def rows(self, commit):
        """The policies of each bucket, at a commit that none was asked for behind."""
        self.reach(commit)
        assert self.device.commit == commit
        return {bucket: sorted((*key, *result) for key, result in rows.items()) for bucket, rows in self.device.policies.items()}
