"""The crate `set_text`, as the trials call it: a program, built in a repository of its own, and what it reads."""

import subprocess

from trial_crate import built as built_crate


def built(scratch):
    return built_crate(scratch, "set_text_files", ["desk_ports", "set_text", "anyhow"])


def framed(files):
    """The text of a set: its files with their lines, and a last line that has no newline apart."""
    for name, text in files.items():
        *lines, rest = text.split(b"\n")
        yield b"=" + name
        yield from (b"-" + line for line in lines)
        if rest:
            yield b"+" + rest
    yield b"."


def answers(program, sets, words=()):
    """The lines that the program writes on these sets."""
    text = b"\n".join(line for files in sets for line in framed(files)) + b"\n"
    return subprocess.run([program, *words], input=text, stdout=subprocess.PIPE, check=True).stdout.splitlines()
