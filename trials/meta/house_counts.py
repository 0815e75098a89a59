#!/usr/bin/env python3
"""Counts what the house is measured by, of the checkout or of a revision: house_counts.py [REV]

Printed are the crates, the names in crates.txt and those of them that their crate never says, the files and lines of sources and
definitions, lines over 120 columns, public functions without a comment, functions with more than seven parameters, enums of a
refusal of a command on its way out, and how often the crates around the store spell the name of a state file.
"""
import pathlib
import re
import subprocess
import sys
import tempfile

WIDTH = 120
MOST_PARAMETERS = 7
REFUSALS = ("VaultRefusal", "KeeperRefusal", "Unsettled", "Message")
STATE_FILES = re.compile(r'b"(?:stamp|buckets|users|apps|_[A-Z]*|r\.)"')
STORE = ("folder_disk", "guard_files", "desk_keeper", "script_notes", "set_text")
FUNCTION = re.compile(r"(?m)^[ \t]*((?:pub(?:\([a-z]+\))? )?)(?:const |unsafe |extern \"C\" )*fn (\w+)")


def code(text):
    """The text without its comments."""
    return re.sub(r"(?m)^\s*(?://|--).*$", "", text)


def parameters(text, at):
    """How many parameters the function has whose name ends at this place."""
    at = text.index("(", at if text[at] != "<" else closing(text, at, "<", ">"))
    inside = text[at + 1 : closing(text, at, "(", ")") - 1]
    depth, count = 0, 0
    for letter in re.sub(r"->", "", inside).rstrip().rstrip(","):
        depth += letter in "(<[" and 1 or letter in ")>]" and -1 or 0
        count += letter == "," and depth == 0
    return count + 1 if inside.strip() else 0


def closing(text, at, opens, closes):
    """Behind what closes the bracket at this place."""
    depth = 0
    for place in range(at, len(text)):
        depth += (text[place] == opens) - (text[place] == closes and text[place - 1] != "-")
        if depth == 0:
            return place + 1
    raise ValueError(text[at : at + 80])


def has_comment(text, at):
    """Whether a comment with three bars stands over the line of this place, or over its attributes."""
    lines = text[:at].rstrip("\n").split("\n")
    while lines and not lines[-1].strip().startswith("///") and re.match(r"\s*(#\[|[^{};]*\)\]$)", lines[-1]):
        lines.pop()
    return bool(lines) and lines[-1].strip().startswith("///")


def counted(top):
    found = dict.fromkeys(
        ("crates", "names in crates.txt", "of which their crate never says", "lines of sources and definitions", f"lines over {WIDTH} columns",
         "public functions without a comment", f"functions with more than {MOST_PARAMETERS} parameters"), 0)
    spelled, refusals = {}, set()
    for row in (top / "crates.txt").read_text().splitlines():
        head, colon, below = row.split("#")[0].partition(":")
        if not colon:
            continue
        crate = top / "crates" / head.split()[0]
        files = [it for part in ("src", "specs", "proofs") for it in (crate / part).rglob("*") if it.suffix in (".rt", ".antt")]
        said = " ".join(it.read_text() for it in files)
        names = below.split()
        found["crates"] += 1
        found["names in crates.txt"] += len(names)
        found["of which their crate never says"] += sum(not re.search(rf"\b{name}\b", code(said)) for name in names)
        for it in files:
            part = it.relative_to(crate).parts[0]
            if part == "proofs":
                continue
            text = it.read_text()
            lines = text.splitlines()
            found["lines of sources and definitions"] += len(lines)
            found[f"lines over {WIDTH} columns"] += sum(len(line) > WIDTH for line in lines)
            if part != "src":
                continue
            for one in FUNCTION.finditer(text):
                if one.group(1) == "pub " and not has_comment(text, one.start()):
                    found["public functions without a comment"] += 1
                if parameters(text, one.end()) > MOST_PARAMETERS:
                    found[f"functions with more than {MOST_PARAMETERS} parameters"] += 1
            if crate.name in STORE:
                spelled[crate.name] = spelled.get(crate.name, 0) + len(STATE_FILES.findall(code(text)))
            refusals.update(one for one in REFUSALS if re.search(rf"\benum {one}\b", text))
    found["enums of a refusal"] = f"{len(refusals)} ({', '.join(sorted(refusals))})"
    found["spellings of a state file's name"] = f"{sum(spelled.values())} ({', '.join(f'{c} {n}' for c, n in sorted(spelled.items()))})"
    return found


def main():
    top = pathlib.Path(__file__).resolve().parent.parent.parent
    if len(sys.argv) < 2:
        rows = counted(top)
    else:
        with tempfile.TemporaryDirectory() as at:
            packed = subprocess.run(["git", "-C", top, "archive", sys.argv[1], "crates", "crates.txt"], capture_output=True, check=True).stdout
            subprocess.run(["tar", "-x", "-C", at], input=packed, check=True)
            rows = counted(pathlib.Path(at))
    for name, count in rows.items():
        print(f"{name}: {count}")


main()
