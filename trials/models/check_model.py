#!/usr/bin/env python3
"""The cases of trials/cases/client_run_cases with the answers that are wanted, by a model of its own of the replies to a check and
of what `check` and `simple` do with them. `check_model.py stdin` writes the cases, and `check_model.py stdout` the cases with
their answers."""
import sys

from agent_model import End, Fields, frame, shown, text


def judged(commit=1, kind=65535, metadata="", bucket="", row=None, sequence=0):
    fields = commit.to_bytes(8, "big") + kind.to_bytes(2, "big") + text(metadata) + text(bucket)
    fields += b"\0" if row is None else b"\1" + b"".join(text(part) for part in row)
    return frame(sequence, 0x81, fields)


def from_agent(commit=1, kind=10, number=0, allowed=1, sequence=0):
    return frame(sequence, 0x82, commit.to_bytes(8, "big") + kind.to_bytes(2, "big") + number.to_bytes(4, "big") + bytes([allowed]))


def of_kind(operation, commit=1, kind=10, sequence=0):
    return frame(sequence, operation, commit.to_bytes(8, "big") + kind.to_bytes(2, "big"))


def gone(commit=1, number=7):
    return frame(0, 0x85, commit.to_bytes(8, "big") + number.to_bytes(4, "big"))


def full(commit=1, kind=10, most=1024):
    return frame(0, 0x86, commit.to_bytes(8, "big") + kind.to_bytes(2, "big") + most.to_bytes(4, "big"))


def flag(fields):
    value = fields.number(1)
    if value > 1:
        raise End(9)
    return value


def bucket_of(fields):
    name = fields.text()
    if len(name) > 64 or not all(c.isalnum() or c in "_-" for c in name):
        raise End(9)
    return name or "."


def key_part(fields):
    part = fields.text()
    if part == "*":
        return part
    fields.data = text(part) + fields.data
    return fields.name()


def most_of(fields):
    most = fields.number(4)
    if most not in (1024, 4294967295):
        raise End(9)
    return most


def line_of(operation, fields):
    """The line of a reply; its operation is none of these where it is another answer."""
    if operation == 0x81:
        commit, result, bucket = fields.number(8), fields.result(), bucket_of(fields)
        cause = "default"
        if flag(fields):
            cause = " ".join(key_part(fields) for _ in range(3))
        return f"{result} {commit} {bucket} {cause}"
    commit = fields.number(8)
    if operation == 0x82:
        kind, number, allowed = fields.number(2), fields.number(4), flag(fields)
        return f"{'allow' if allowed else 'deny'} {commit} agent {kind} {number}"
    if operation in (0x83, 0x84):
        word = "not-resolved" if operation == 0x83 else "no-agent"
        return f"{word} {commit} {fields.number(2)}"
    if operation == 0x85:
        return f"agent-gone {commit} {fields.number(4)}"
    return f"agent-full {commit} {fields.number(2)} {most_of(fields)}"


def reply(data):
    """The line of the one reply at the front, and how many bytes were received for it. None where the input ends before."""
    if len(data) < 4:
        return None, len(data)
    size = int.from_bytes(data[:4], "big")
    if not 3 <= size <= 1_048_576:
        return End(9), 4
    if len(data) < size + 4:
        return None, len(data)
    sequence, operation, fields = int.from_bytes(data[4:6], "big"), data[6], Fields(data[7 : size + 4])
    try:
        if operation == 0x90:
            fields.number(8), fields.number(4)
            line = None
        elif operation in range(0x81, 0x87):
            line = line_of(operation, fields)
        else:
            raise End(9)
        if fields.data or sequence != 0 or line is None:
            raise End(9)
        return line, size + 4
    except End as end:
        return end, size + 4


def answered(word, words):
    client, session, user, privilege, sink, dials, links = words.split(" ", 6)
    question = frame(0, 1 if word == "check" else 2, text(client) + text(user) + text(privilege))
    links = [bytes.fromhex(link) for link in links.split("/")]
    fails = [] if dials == "-" else [int(number) for number in dials.split(",")]
    made = faults = lost = 0
    back, said = [], End(7)
    while lost < 3:
        made += 1
        if made in fails or not links:
            faults, lost = faults + 1, lost + 1
            continue
        said, received = reply(links.pop(0))
        back.append(f" {question.hex()}/{received}")
        if said is not None:
            break
        faults, lost, said = faults + 1, lost + 1, End(7)
    taken, status = b"", 0
    calls = [] if sink == "-" else [int(number) for number in sink.split(",")]
    line = f"{said}\n".encode()
    if isinstance(said, End):
        status = said.args[0]
        line = b"fault reply\n" if status == 9 else b""
    if 1 not in calls:
        taken = line
    elif status == 0:
        status = 5
    return f"{status} {shown(taken)}{''.join(back)} dials {made} faults {faults}"


def cases():
    def case(*links, word="check", names="c s u p", sink="-", dials="-"):
        return f"{word} {names} {sink} {dials} {'/'.join(link.hex(' ', -4) for link in links)}"

    key = ("*", "*", "p")
    yield "# each answer of the policies as its text"
    for kind, metadata in ((0, ""), (1, ""), (65535, ""), (65534, "B"), (65534, ""), (10, ""), (65533, "ask?")):
        yield case(judged(kind=kind, metadata=metadata, row=key))
        yield case(judged(kind=kind, metadata=metadata, bucket="B"))
    yield case(judged(2, 65535, "", "", ("c", "*", "p")))
    yield case(judged(18446744073709551615, 0))
    yield "# what an agent answers, and why none does"
    for word in ("check", "simple"):
        yield case(from_agent(), word=word)
        yield case(from_agent(8, 65533, 4294967295, 0), word=word)
        yield case(of_kind(0x83), word=word)
        yield case(of_kind(0x84), word=word)
        yield case(gone(), word=word)
        yield case(full(), word=word)
        yield case(full(most=4294967295), word=word)
    yield "# the frame of the question"
    yield case(judged(), names="org.tizen.browser session 5001 http://tizen.org/privilege/internet")
    yield case(judged(), names="org.tizen.browser session 5001 http://tizen.org/privilege/internet", word="simple")
    yield "# links that end before the reply is whole, and dials that fail, are made good up to twice"
    yield case(b"", judged())
    yield case(judged()[:5], judged()[:-1], judged(row=key))
    yield case(judged(), dials="1,2")
    yield case(b"", judged(), dials="1")
    yield case(b"", judged(), dials="2")
    yield case(b"", b"", b"", judged())
    yield case(judged(), dials="1,2,3")
    yield case(b"", b"\0", judged(), dials="2")
    yield "# replies that are wrong"
    for wrong in (judged(sequence=1), frame(0, 0x90, bytes(12)), frame(0, 0x01), frame(0, 0xA0, bytes(2)), judged()[:-1] + b"\2"):
        yield case(wrong)
        yield case(b"", wrong, judged())
    yield case(bytes.fromhex("00000002"))
    yield case(bytes.fromhex("00100001"))
    yield case(judged(kind=0, metadata="x"))
    yield case(judged(row=("c", "u", "")))
    yield case(judged() + judged())
    yield "# the sink fails"
    yield case(judged(), sink="1")
    yield case(of_kind(0x84), sink="1")
    yield case(judged(sequence=1), sink="1")
    yield case(judged(), dials="1,2,3", sink="1")


def main():
    for line in cases():
        if sys.argv[1] == "stdout" and not line.startswith("#"):
            word, words = line.split(" ", 1)
            line = f"{line} => {answered(word, words)}"
        print(line)


if __name__ == "__main__":
    main()
