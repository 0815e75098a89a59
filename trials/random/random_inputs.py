#!/usr/bin/env python3
"""random_inputs.py COUNT SEED: runs the program and the models on so many random scripts and rule texts each, valid and
broken. 10,000 of each take some four minutes. Ends with status 1 at the first that they answer differently, which is
shown as short as it could be made."""

import collections
import random
import sys

import random_scripts
from program import Progress, build, compare

LABELS = [b"A", b"X", b"Y", b"_", b"^", b"*", b"User::Home", b"A" * 255]
BAD_RULES = [
    b"A X", b"A X r r r", b"A X q", b"-A X r", b"@ X r", b"A ? r", b"A\rX r", b"A X r\r", b"A" * 256 + b" X r", b"A X " + b"r" * 65,
]


class Rules(random.Random):
    """Random rule texts of `smack-access`."""

    def modes(self, letters=b"rwxatlbRWXATLB-"):
        return bytes(self.choices(letters, k=self.randint(1, 5)))

    def line(self):
        draw = self.random()
        if draw > 0.99:
            return self.choice(BAD_RULES)
        if draw > 0.97:
            return self.choice([b"", b" ", b"\t \t"])
        words = [self.choice(LABELS), self.choice(LABELS)] + [self.modes() for _ in range(self.randint(1, 2))]
        return self.choice([b"", b" ", b"\t"]) + self.choice([b" ", b"\t", b"  "]).join(words) + self.choice([b"", b" "])

    def text(self):
        text = b"\n".join(self.line() for _ in range(self.choice([0, 1, 2, 5, 20, 60, 300])))
        if self.random() < 0.01 and text:
            at = self.randrange(len(text))
            text = text[:at] + self.randbytes(1) + text[at + 1:]
        return text + self.choice([b"", b"\n"])

    def request(self):
        if self.random() < 0.1:
            return [self.choice(LABELS + [b"?", b"-A", b""]), self.choice(LABELS), self.modes()]
        return [self.choice(LABELS), self.choice(LABELS), self.modes(b"rwxatlRWXATL")]


def main():
    if len(sys.argv) != 3 or not all(word.isdecimal() for word in sys.argv[1:]):
        sys.exit(__doc__)
    count, seed = map(int, sys.argv[1:])
    scripts, rules = random_scripts.Scripts(random.Random(seed)), Rules(seed)
    statuses, progress = collections.Counter(), Progress(count)
    build()
    for _ in range(count):
        statuses["local", compare([b"local"], scripts.script())] += 1
        statuses["smack-access", compare([b"smack-access", *rules.request()], rules.text())] += 1
        progress.step()
    print(f"{count} scripts and {count} rule texts, answered alike")
    for (word, status), times in sorted(statuses.items()):
        print(f"{word}: status {status} {times} times")


main()
