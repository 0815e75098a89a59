#!/usr/bin/env python3
"""models.py --self-test: compares the models with the worked cases in `examples/`, within a second, and ends with status 1
at the first difference.

The models say what `local` and `smack-access` answer, written again in plain Python; they share nothing with the crates.
`smack_model.py` has rules and decisions, `script_model.py` the lines of a script, `device_model.py` the commands. `local` and
`smack_access` give the bytes that are written and the status."""

import pathlib
import sys

from device_model import LIMITS, Device
from script_model import Reader, number_of
from smack_model import decision_text, is_label, is_request, rule_of

MOST_BYTES = 16_777_216
MOST_IN_LINE = 65_535
BAD_COMMAND_LINE = b"fault command line\n", 2
OVER_THE_NET = (b"serve", b"watch", b"check", b"simple", b"admin", b"agent")
sys.path.append(str(pathlib.Path(__file__).resolve().parents[2] / "examples"))
import cases as worked_cases


def lines_of(text):
    """Each line without its newline, and how many bytes of the text end with it."""
    end = 0
    *whole, last = text.split(b"\n")
    for line in whole:
        end += len(line) + 1
        yield line, end
    if last:
        yield last, end + len(last)


def answers(script, device):
    """The answer lines to a script, of which the last names the line that is outside the grammar, if there is one."""
    reader, number = Reader(), 0
    for number, (line, end) in enumerate(lines_of(script), 1):
        step = reader.step(line) if end <= MOST_BYTES and len(line) <= MOST_IN_LINE else None
        if step is None:
            yield b"syntax %d" % number
            return
        if step:
            yield from device.answer(step)
    if reader.block:
        yield b"syntax %d" % (number + 1)


def local(script, commit=0):
    device = Device()
    device.commit = commit
    written = list(answers(script, device))
    is_wrong = bool(written) and written[-1].startswith(b"syntax ")
    return b"".join(line + b"\n" for line in written), 3 if is_wrong else 0


def smack_access(subject, object_, modes, text):
    if modes[0:1] == b"-" or not is_label(subject) or not is_label(object_) or not is_request(modes):
        return BAD_COMMAND_LINE
    rules = []
    for number, (line, end) in enumerate(lines_of(text), 1):
        rule = rule_of(line) if end <= MOST_BYTES else None
        if rule is None:
            return b"syntax %d\n" % number, 3
        if rule:
            rules.append(rule)
    return decision_text(rules, subject, object_, modes) + b"\n", 0


def sample(count):
    """What `sample_model.py` answers, which runs the generated script: the guest is denied every third application."""
    denied = (count + 2) // 3
    return (
        b"sample %d\ncommits %d\nchecks %d\nallow %d\ndeny %d\n"
        % (count, 5 + count + denied, 4 * count, 4 * count - denied, denied)
    )


def answered(words, text):
    """What the program answers to these words and this input."""
    match words:
        case [b"local"]:
            return local(text)
        case [b"smack-access", subject, object_, modes]:
            return smack_access(subject, object_, modes, text)
        case [b"sample", word] if number_of(word, 1, 1000) is not None:
            return sample(int(word)), 0
    return BAD_COMMAND_LINE


def self_test():
    cases = 0
    for case in worked_cases.all_cases():
        if case.words == [b"smack-load"] or case.before:
            # over a folder with files: `folder_model.py` has the model
            continue
        if case.words and case.words[0] in OVER_THE_NET and case.status != 2:
            continue
        wanted = case.output, case.status
        given = answered(case.words, case.input)
        if given != wanted:
            sys.exit(f"{case.name}: the models answer {given}, and {wanted} is wanted")
        cases += 1
    last = LIMITS["commits"]
    given = local(b"set . c u p allow\nset . c u p allow\n", last - 1)
    if given != (b"ok %d\nrefused 11 limit commits %d\n" % (last, last), 0):
        sys.exit(f"the last commit: the models answer {given}")
    print(f"{cases + 1} worked cases, answered as wanted")


if __name__ == "__main__":
    if sys.argv[1:] != ["--self-test"]:
        sys.exit(__doc__)
    self_test()
