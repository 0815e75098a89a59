"""Reads the worked cases: folders, tables and scripts with their answers, as README.md of this folder has them."""

import dataclasses
import pathlib
import re

HERE = pathlib.Path(__file__).resolve().parent
ESCAPE = re.compile(rb"\\(?:x([0-9a-f]{2})|\{(?:(\d+)\.\.)?(\d+)\*([^}]+)\}|\{([a-z_]+)\}|(.))")
SIMPLE = {b"n": b"\n", b"t": b"\t", b"r": b"\r", b"s": b" ", b"e": b"", b"c": b"", b"\\": b"\\", b"|": b"|"}
# The files whose text stands for an escape.
FILES = {b"help": HERE / "help", b"version": HERE.parent / "VERSION"}
COLUMNS = (b"name", b"words", b"input", b"output", b"status", b"errors")


class Wrong(Exception):
    """A case that cannot be read: the file, the line and why."""


@dataclasses.dataclass
class Case:
    name: str
    words: list
    input: bytes
    output: bytes
    status: int
    errors: bytes | None
    before: pathlib.Path | None = None
    after: pathlib.Path | None = None


def numbered(part, first, last):
    """A part for each number, which stands in it in place of each run of @, of as many digits at least."""
    between, runs = re.split(rb"@+", part), [len(run) for run in re.findall(rb"@+", part)]
    if not runs:
        return part * (last - first + 1)
    form = b"".join(b"%b%%0%dd" % (text.replace(b"%", b"%%"), run) for text, run in zip(between, runs)) + between[-1].replace(b"%", b"%%")
    return b"".join(form % ((turn,) * len(runs)) for turn in range(first, last + 1))


def plain(cell):
    """The bytes that a cell, or a part of one, stands for."""

    def of(found):
        digits, first, last, again, file, simple = found.groups()
        if digits:
            return bytes.fromhex(digits.decode())
        if last:
            return numbered(plain(again), int(first or 1), int(last))
        if file in FILES:
            return plain(FILES[file].read_bytes().removesuffix(b"\n"))
        if simple not in SIMPLE:
            raise Wrong(f"no escape: {found.group().decode()}")
        return SIMPLE[simple]

    return ESCAPE.sub(of, cell)


def text(cell):
    """The text of a cell: lines, the last of which ends with a newline too, unless the cell ends with \\c or says \\e."""
    if cell in (b"", rb"\e"):
        return b""
    return plain(cell) + (b"" if cell.endswith(rb"\c") else b"\n")


def cells_of(line):
    return [cell.strip(b" ") for cell in re.findall(rb"(?:^|(?<=\|))((?:[^|\\]|\\.)*)", line)]


def rows_of(file, known=COLUMNS):
    """The rows of a table: each a line number and the cells by the names of their columns. A line `COLUMN: CELL` is shared by the rows
    below it. What stands beneath a row is its last column, line by line."""
    shared, columns, rows = {}, None, []
    for number, line in enumerate(file.read_bytes().split(b"\n"), 1):
        begins = line.lstrip(b" ")
        name, colon, cell = line.partition(b": ")
        if not begins or line.startswith(b"#"):
            continue
        if begins.startswith(b"| "):
            if not rows:
                raise Wrong(f"{file}, line {number}: no row is above it")
            of, above = rows[-1][1], rows[-1][1].get(columns[-1], b"")
            of[columns[-1]] = above + rb"\n" * bool(above) + begins[2:]
        elif colon and name in known:
            shared[name] = cell.strip(b" ")
        elif columns is None:
            columns = cells_of(line)
            if not set(columns) <= set(known):
                raise Wrong(f"{file}, line {number}: columns are {b', '.join(known).decode()}")
        else:
            cells = cells_of(line)
            if len(cells) > len(columns):
                raise Wrong(f"{file}, line {number}: more cells than columns")
            rows.append((number, {**shared, **{of: cell for of, cell in zip(columns, cells) if cell}}))
    return rows


def name_of(file, number, row):
    table = file.relative_to(HERE).with_suffix("").as_posix()
    return f"{table}/{row[b'name'].decode()}" if b"name" in row else f"{table}:{number}"


def of_table(file):
    """The cases of a table."""
    cases = []
    for number, row in rows_of(file):
        try:
            cases.append(
                Case(
                    name=name_of(file, number, row),
                    words=[plain(word) for word in row.get(b"words", b"").split()],
                    input=text(row.get(b"input", b"")),
                    output=text(row.get(b"output", b"")),
                    status=int(row.get(b"status", b"0")),
                    errors=text(row[b"errors"]) if b"errors" in row else None,
                )
            )
        except (ValueError, OSError, Wrong) as why:
            raise Wrong(f"{file}, line {number}: {why}") from None
    return cases


def parts_of(file):
    """The lines of a script, each with the answers that are wanted behind it: they stand beneath it, behind four spaces."""
    parts = []
    for line in file.read_bytes().split(b"\n")[:-1]:
        if not line.startswith(b"    "):
            parts.append((plain(line), []))
        elif parts:
            parts[-1][1].append(plain(line[4:]))
        else:
            raise Wrong(f"{file}: it begins with an answer")
    return parts


def of_script(file):
    """The case of a script for `local` with its answers."""
    parts = parts_of(file)
    answers = [answer for _, answers in parts for answer in answers]
    return Case(
        name=file.relative_to(HERE).with_suffix("").as_posix(),
        words=[b"local"],
        input=b"".join(line + b"\n" for line, _ in parts),
        output=b"".join(answer + b"\n" for answer in answers),
        status=3 if answers and answers[-1].startswith(b"syntax ") else 0,
        errors=None,
    )


def of_folder(folder):
    """The case of a folder."""
    read = {it.name: it.read_bytes() for it in folder.iterdir() if it.is_file()}
    if "input" not in read or "output" not in read:
        raise Wrong(f"{folder}: it has words, and no input or no output")
    return Case(
        name=folder.relative_to(HERE).as_posix(),
        words=read["words"].split(b"\n")[:-1],
        input=read["input"],
        output=read["output"],
        status=int(read.get("status", b"0")),
        errors=read.get("errors"),
        before=folder / "before" if (folder / "before").is_dir() else None,
        after=folder / "after" if (folder / "after").is_dir() else None,
    )


def all_cases():
    """Each case, by name."""
    found = [of_folder(file.parent) for file in HERE.rglob("words") if file.is_file()]
    found += [of_script(file) for file in HERE.rglob("*.script")]
    for file in HERE.rglob("*.table"):
        found += of_table(file)
    found.sort(key=lambda it: it.name)
    for one, next_one in zip(found, found[1:]):
        if one.name == next_one.name:
            raise Wrong(f"two cases have the name {one.name}")
    return found
