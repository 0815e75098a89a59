#!/usr/bin/env python3
"""Random databases of buckets, with what a model of nested evaluation answers from them, for `eval_cases`, which finds each answer by
`plain`, by an index, in the form that lends its texts, and by an index made of the last one, and says so where these differ.

    trials/try random_databases 1000 1      a thousand databases from the seed 1, by the program of `trials/cases`, built by `rt try`

The databases are deep, wide, or both; NONE stands at every level, keys and results tie, wildcards stand in each place, and questions
have names that no policy has, and names stand on both sides of the wildcard. Each database is changed four times, in single buckets:
policies, fallbacks, buckets that come and go; it is asked behind each change. The model shares no code with the crates: it is the
recursive minimum, with the answers of buckets kept.
Prints the first lines that differ, and `N databases, M questions, K differences`; the status is 0 where there is none."""
import pathlib
import random
import subprocess
import sys
import tempfile

# `rt try` ends a program that writes a mebibyte.
MOST_BYTES = 800_000

ORDER = {"deny": 0, "none": 1, "agent": 7, "bucket": 65534, "allow": 65535}
RUN = pathlib.Path(__file__).resolve().parents[1] / "cases" / "run"


def rank(result):
    """The order of results: by kind, then by the bytes of the metadata."""
    word, _, metadata = result.partition(":")
    return ORDER[word], metadata.encode()


def key_rank(key):
    return tuple(word.encode() for word in key)


class Database:
    def __init__(self):
        self.fallbacks, self.policies = {".": "deny"}, {".": {}}

    def answer(self, bucket, question, deep, known):
        """The result of a bucket with the bucket and key that it was written at; the key is None for a fallback."""
        if bucket in known:
            return known[bucket]
        found = []
        for key, result in self.policies[bucket].items():
            if not all(own in ("*", asked) for own, asked in zip(key, question)):
                continue
            if not result.startswith("bucket:"):
                found.append((rank(result), key_rank(key), (result, bucket, key)))
            elif deep:
                given = self.answer(result[len("bucket:"):], question, deep, known)
                found.append((rank(given[0]), key_rank(key), given))
        found = [it for it in found if it[2][0] != "none"]
        known[bucket] = min(found, key=lambda it: it[:2])[2] if found else (self.fallbacks[bucket], bucket, None)
        return known[bucket]

    def text(self, bucket, question, deep=True):
        result, cause, key = self.answer(bucket, question, deep, {})
        return " ".join([result, cause, *(key or ["default"])])


def result_of(chance):
    roll = chance.random()
    if roll < 0.3:
        return "none"
    if roll < 0.5:
        return "deny"
    if roll < 0.75:
        return "allow"
    return "agent:" + chance.choice(["", "a", "b", "aa"])


def fallback_of(chance, root):
    while True:
        result = result_of(chance)
        if not (root and result == "none"):
            return result


def database_lines(chance):
    """The lines of one database and its questions, each with the answer that is wanted."""
    wide = chance.random() < 0.3
    depth = chance.randrange(0, 24 if chance.random() < 0.2 else 6)
    # some come before the wildcard
    names = [chance.choice(["", "!"]) + str(it) for it in range(chance.choice([1, 2, 3, 12]))]
    buckets = [".", *(f"b{it}" for it in range(depth))]
    device = Database()
    lines = [("fresh", "done")]
    for bucket in buckets[1:]:
        fallback = fallback_of(chance, False)
        device.fallbacks[bucket], device.policies[bucket] = fallback, {}
        lines.append((f"bucket {bucket} {fallback}", "done"))
    if chance.random() < 0.5:
        device.fallbacks["."] = fallback_of(chance, True)
        lines.append((f"bucket . {device.fallbacks['.']}", "done"))

    def word():
        return "*" if chance.random() < 0.5 else chance.choice(names)

    def set_policy(place):
        bucket = buckets[place]
        key = (word(), word(), word())
        below = buckets[place + 1:]
        result = f"bucket:{chance.choice(below)}" if below and chance.random() < 0.45 else result_of(chance)
        device.policies[bucket][key] = result
        lines.append((f"set {bucket} {' '.join(key)} {result}", "done"))

    def ask(count):
        for _ in range(count):
            question = tuple(chance.choice(asked) for _ in range(3))
            lines.append((f"check {' '.join(question)}", device.text(".", question)))
            bucket = chance.choice(buckets)
            lines.append((f"from {bucket} {' '.join(question)}", device.text(bucket, question)))
            lines.append((f"flat {bucket} {' '.join(question)}", device.text(bucket, question, deep=False)))

    def change():
        """One change, of one bucket but where it goes."""
        roll = chance.random()
        if roll < 0.15:
            fallback = fallback_of(chance, False)
            bucket = f"b{len(device.policies)}{chance.choice('xyz')}"
            place = chance.randrange(1, len(buckets) + 1)
            if bucket not in device.policies:
                device.policies[bucket] = {}
                buckets.insert(place, bucket)
            device.fallbacks[bucket] = fallback
            lines.append((f"bucket {bucket} {fallback}", "done"))
        elif roll < 0.3 and len(buckets) > 1:
            bucket = buckets.pop(chance.randrange(1, len(buckets)))
            del device.policies[bucket], device.fallbacks[bucket]
            for policies in device.policies.values():
                for key in [key for key, result in policies.items() if result == f"bucket:{bucket}"]:
                    del policies[key]
            lines.append((f"gone {bucket}", "done"))
        elif roll < 0.45:
            bucket = chance.choice(buckets)
            device.fallbacks[bucket] = fallback_of(chance, bucket == ".")
            lines.append((f"bucket {bucket} {device.fallbacks[bucket]}", "done"))
        else:
            if chance.random() < 0.5:
                names.append(f"n{chance.randrange(1000)}")
                asked.append(names[-1])
            set_policy(chance.randrange(len(buckets)))

    asked = [*names, "stranger"]
    for place in range(len(buckets)):
        for _ in range(chance.randrange(0, 30 if wide else 8)):
            set_policy(place)
    ask(6)
    for _ in range(4):
        change()
        ask(3)
    return lines


def told(lines):
    """What the program writes for these lines."""
    with tempfile.NamedTemporaryFile("w", prefix="databases-") as file:
        file.write("".join(f"{line}\n" for line in lines))
        file.flush()
        done = subprocess.run([RUN, "--on", file.name, "eval_cases"], stdout=subprocess.PIPE, text=True, check=True)
    return done.stdout.splitlines()


def batches(databases):
    """The lines of these databases, in parts for each of which the program writes little enough."""
    batch, size = [], 0
    for lines in databases:
        more = sum(len(f"{line} = {answer}\n".encode()) for line, answer in lines)
        if batch and size + more > MOST_BYTES:
            yield batch
            batch, size = [], 0
        batch, size = [*batch, *lines], size + more
    yield batch


def main():
    count, seed = int(sys.argv[1]), int(sys.argv[2])
    chance = random.Random(seed)
    lines, given = [], []
    for batch in batches(database_lines(chance) for _ in range(count)):
        lines += batch
        given += told([line for line, _ in batch])
    wanted = [f"{line} = {answer}" for line, answer in lines]
    questions = sum(not line.startswith(("fresh", "bucket", "set", "gone")) for line, _ in lines)
    wrong = [pair for pair in zip(wanted, given) if pair[0] != pair[1]]
    differences = len(wrong) + abs(len(wanted) - len(given))
    for want, got in wrong[:5]:
        print(f"wanted {want}\ngot    {got}")
    print(f"{count} databases, {questions} questions, {differences} differences")
    return 1 if differences else 0


if __name__ == "__main__":
    sys.exit(main())
