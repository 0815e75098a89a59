"""Random frames of every operation, right ones and ones with another byte, against `frame_model.py`: what the program of cases
of frames answers to each has to be what the model says. `random_frames.py [COUNT [SEED]]`; with `--self-test` the model alone is
tried on the cases of frames that are typed by hand. The program has to be built, by `rt run` in its folder."""

import pathlib
import random
import subprocess
import sys

import frame_model
from random_scripts import (
    APPLICATIONS, AUTHORS, BAD_WORDS, BUCKETS, CLIENTS, LABELS, METADATA, PACKAGES, PLACEHOLDERS, PRIVILEGES, UIDS, USERS,
)

CASES = pathlib.Path(__file__).resolve().parents[2] / "crates" / "cases_frames"
PROGRAM = CASES / "out" / "cases_frames"
NUMBERS = (0, 1, 2, 7, 255, 256, 1024, 5001, 65534, 65535, 65536, 2**32 - 1, 2**32, 2**64 - 1)
MODE_WORDS = (b"r", b"rx", b"rwxatlb", b"-", b"wt")


class Frames:
    """Frames drawn by a `random.Random`, most of them right."""

    def __init__(self, draw):
        self.draw = draw

    def one(self, values):
        return self.draw.choice(list(values))

    def n(self, size, numbers=NUMBERS):
        return (self.one(numbers) % 256**size).to_bytes(size, "big")

    def text(self, texts):
        text = self.one(texts) if self.draw.random() < 0.98 else self.one(BAD_WORDS)
        return len(text).to_bytes(2, "big") + text

    def bucket(self):
        return self.text([b"" if name == b"." else name for name in BUCKETS])

    def name(self, marks=()):
        return self.text([*self.one([CLIENTS, USERS, PRIVILEGES]), *marks])

    def names(self, marks=()):
        return b"".join(self.name(marks) for _ in range(3))

    def result(self):
        kind = self.one([0, 1, 65535, 65534, 2, 7, 65533])
        texts = {65534: [b"", b"A", b"b" * 64]}.get(kind, [b""] if kind in (0, 1, 65535) else METADATA)
        return kind.to_bytes(2, "big") + self.text(texts)

    def flag(self):
        return self.n(1, (0, 1))

    def scope(self):
        return self.one([b"\0", b"\1" + self.n(4)])

    def change(self):
        key = self.bucket() + self.names([b"*"])
        return self.one([b"\0" + key, b"\1" + key + self.result()])

    def changes(self):
        count = self.draw.randint(0, 4)
        return count.to_bytes(4, "big") + b"".join(self.change() for _ in range(count))

    def install(self):
        names = sorted(set(self.draw.choices(PRIVILEGES, k=self.draw.randint(0, 4))))
        if self.draw.random() < 0.05:
            names = names[::-1]
        return (
            self.text(PACKAGES) + self.text([b"" if name == b"-" else name for name in AUTHORS]) + self.text(APPLICATIONS)
            + self.scope() + len(names).to_bytes(4, "big") + b"".join(self.text([name]) for name in names)
        )

    def template(self):
        words = [*LABELS, *PLACEHOLDERS, *PLACEHOLDERS]
        lines = [
            b" ".join([self.one(words), self.one(words), *self.draw.choices(MODE_WORDS, k=self.draw.randint(1, 2))]) + b"\n"
            for _ in range(self.one([0, 1, 2, 5, 64, 65]))
        ]
        return self.text([b"".join(lines)])

    def file_name(self):
        return self.text([b"guard", b"users", b"r.pk", b"f" * 255])

    def part(self):
        part = self.draw.randbytes(self.one([0, 1, 2, 63, 1000]))
        return len(part).to_bytes(4, "big") + part

    def refused(self):
        rule = self.one([*range(1, 15)])
        texts = {1: BUCKETS[1:], 4: BUCKETS[1:], 12: BUCKETS[1:], 8: PACKAGES, 9: [b"", b"web"], 11: frame_model.COUNTED}
        values = {6: NUMBERS[:10], 7: NUMBERS[:12], 11: NUMBERS, 14: (0, 1, 1, 2)}
        return bytes([rule]) + self.text(texts.get(rule, [b""])) + self.n(8, values.get(rule, (0,)))

    def fields(self, operation):
        filters = self.names([b"*", b"#"])
        given = {
            0x01: self.names, 0x02: self.names, 0x10: lambda: self.bucket() + self.result(), 0x11: self.bucket,
            0x12: self.changes, 0x13: lambda: self.bucket() + filters, 0x14: bytes, 0x15: self.template,
            0x16: lambda: self.n(4) + self.n(1, (0, 1, 2, 3, 3, 4)), 0x17: lambda: self.n(4), 0x18: self.install,
            0x19: lambda: self.text(APPLICATIONS) + self.scope(), 0x1A: lambda: self.bucket() + filters,
            0x1B: lambda: self.bucket() + self.flag() + self.names(), 0x1C: bytes, 0x1D: self.install,
            0x1E: lambda: self.text(PACKAGES) + self.flag(), 0x1F: bytes, 0x30: bytes, 0x20: lambda: self.n(2),
            0x21: lambda: self.n(4) + self.flag(),
            0x81: lambda: self.n(8) + self.result() + self.bucket() + self.one([b"\0", b"\1" + self.names([b"*"])]),
            0x82: lambda: self.n(8) + self.n(2) + self.n(4) + self.flag(), 0x83: lambda: self.n(8) + self.n(2),
            0x84: lambda: self.n(8) + self.n(2), 0x85: lambda: self.n(8) + self.n(4),
            0x86: lambda: self.n(8) + self.n(2) + self.n(4, (1024, 2**32 - 1, 1023)), 0x90: lambda: self.n(8) + self.n(4),
            0x91: self.refused, 0x92: lambda: self.names([b"*"]) + self.result(), 0x93: lambda: self.n(4), 0x95: bytes,
            0x96: lambda: self.file_name() + self.n(4), 0x97: lambda: self.file_name() + self.part(),
            0x98: lambda: self.n(8), 0x99: lambda: self.n(2), 0x9A: lambda: self.n(4) + self.n(4), 0xA0: lambda: self.n(2),
            0xA1: lambda: self.n(2), 0xA2: lambda: self.n(4) + self.names() + self.result(), 0xA3: lambda: self.n(4),
            0xA4: lambda: self.n(4),
        }
        return given[operation]()

    def frame(self):
        """A side and a frame of one of its operations."""
        side = self.one(frame_model.SIDES)
        operation = self.one(frame_model.FIELDS[side])
        return side, frame_model.with_length(self.n(2) + bytes([operation]) + self.fields(operation))

    def case(self):
        """A case of a right frame and one of slips in it, with their answers."""
        side, frame = self.frame()
        while frame_model.fault(side, frame):
            side, frame = self.frame()
        yield f"right {side} {frame.hex()}", frame_model.right(side, frame)
        slips = [(self.draw.randrange(6, len(frame)), self.draw.randrange(256)) for _ in range(8)]
        words = " ".join(f"{place}={byte:02x}" for place, byte in slips)
        yield f"slips {words}", ", ".join(frame_model.slip(side, frame, *slip) for slip in slips)


def compare(cases):
    """Ends the trial with status 1 at the first case that the program answers otherwise."""
    done = subprocess.run([PROGRAM], input="".join(case + "\n" for case, _ in cases).encode(), stdout=subprocess.PIPE, check=True)
    given = done.stdout.decode().splitlines()
    for (case, wanted), line in zip(cases, given, strict=True):
        if line != f"{case} => {wanted}":
            sys.exit(f"{line[:1000]}\nwanted {wanted[:1000]}")


def self_test():
    count = 0
    for line, wanted, given in frame_model.self_test((CASES / "stdout").read_text()):
        if wanted != given:
            sys.exit(f"{line}\ngiven {given}")
        count += 1
    print(f"{count} cases of frames are answered as wanted")


def main():
    if sys.argv[1:] == ["--self-test"]:
        return self_test()
    count, seed = (int(word) for word in (sys.argv[1:] + ["10000", "1"][len(sys.argv) - 1 :])[:2])
    frames = Frames(random.Random(seed))
    done = 0
    while done < count:
        cases = [case for _ in range(min(200, count - done)) for case in frames.case()]
        compare(cases)
        done += min(200, count - done)
    print(f"{done} frames and {8 * done} slips are answered as the model says")


if __name__ == "__main__":
    main()
