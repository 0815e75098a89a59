#!/usr/bin/env python3
"""run_words.py [--names]: how many lines of definitions the clauses of `run` use.

From the clauses of `run` on, each name is followed to its definition in the specs of the crates that make the program, and from
there to the names that it uses. Printed are the lines of the definitions that were met, by crate, without comments, imports and
blank lines. Definitions of the crates below are counted apart, and not followed: they are what those promise. Then comes what is
reached from the definition of each command, and what from that alone; and the lines of `privilege_cli`, its source, specs and
proofs. With `--names` each definition stands at the end."""

import pathlib
import re
import sys

CRATES = pathlib.Path(__file__).resolve().parents[2] / "crates"
PARTS = """privilege_cli run_endings word_line command_words host_ports script_replies folder_runs local_runs access_runs
sample_runs serve_runs client_runs admin_runs agent_runs watch_runs""".split()
USE = re.compile(r"^\s*(?:ghost )?use Rattle\.(\w+)\.specs\.([\w.]+?)(?:\.\{([^}]*)\})?(?: as \w+)?;?$")
HEAD = re.compile(r"^\s*(?:(?:abbrev|unfoldable)(?: pub)?|(?:pub )?(?:record|data)) ([\w']+)")
NAME = re.compile(r"(?<![\w.'])[A-Za-z_][\w']*")
BINDERS = re.compile(r"[({]((?:[a-z_][\w']* )+):|λ ((?:[a-z_][\w']* ?)+)\.|λ \(([a-z_]\w*) :|let ([a-z_]\w*)|[;{,]\s*([a-z_]\w*) =")


def names(text):
    return set(NAME.findall(re.sub(r'"[^"]*"', "", text)))


def bound(lines, name):
    """The names that a definition binds itself: in binders, as its fields, and in the patterns of its clauses."""
    found = {word for groups in BINDERS.findall("\n".join(lines)) for group in groups for word in group.split()}
    for line in lines:
        if re.match(rf"\s*{name} ", line) and " =" in line:
            found |= {word for word in names(line.split(" =")[0]) if word[0].islower()}
        found |= set(re.findall(r"^\s*pub (\w+) :", line))
    return found - {name}


class File:
    """The definitions of a file: their lines, the modules round each, the variants of each `data`, and what is imported."""

    def __init__(self, path):
        lines = [line for line in path.read_text().split("\n") if line.strip() and not line.strip().startswith("--")]
        self.imports = imports(lines)
        self.lines, self.around, self.variants, heads, now = {}, {}, {}, [], None
        for line in lines:
            indent = len(line) - len(line.lstrip())
            head = HEAD.match(line)
            if line.startswith(("use ", "pub mod ")):
                now = None
            elif head or line.lstrip().startswith("module _"):
                now = head[1] if head else f"module {len(self.lines)}"
                heads = [(depth, name) for depth, name in heads if depth < indent]
                self.lines[now], self.around[now] = [], [name for _, name in heads]
                if not head:
                    heads.append((indent, now))
            if now:
                self.lines[now].append(line)
                variant = re.match(r"\s+(\w+) :", line)
                if variant and "data " in self.lines[now][0]:
                    self.variants[variant[1]] = now

    def uses(self, name):
        found = names("\n".join(self.lines[name]))
        for here in [name, *self.around[name]]:
            found -= bound(self.lines[here], here)
        return found | set(self.around[name])


def imports(lines):
    """Each imported name: its crate, its path, and its name there."""
    found = {}
    for use in filter(None, map(USE.match, lines)):
        for item in (use[3] or "").split(", "):
            here = item.split(" as ")
            found[here[-1]] = (use[1], use[2].split("."), here[0])
    return found


FILES = {}


def place(crate, path):
    """The file of a path, and what is left of the path behind it; nothing for what sources declare, and for the kit's crates."""
    if path[0] == "declared" or not (CRATES / crate).is_dir():
        return None
    for cut in range(len(path), 0, -1):
        file = CRATES / crate / "specs" / ("/".join(path[:cut]) + ".antt")
        if file.is_file():
            FILES[file] = FILES.get(file) or File(file)
            return file, path[cut:]
    sys.exit(f"no file of {crate} for {'.'.join(path)}")


def follow(wanted):
    """The definitions that are met from these names on, in the parts and below them, each with its number of lines."""
    met, below = {}, {}
    while wanted:
        crate, path, name = wanted.pop()
        found = place(crate, path)
        if found is None:
            continue
        file, rest = found
        name = rest[0] if rest else FILES[file].variants.get(name, name)
        if name not in FILES[file].lines:
            sys.exit(f"{file}: no definition of {name}")
        key, counts = (crate, file, name), met if crate in PARTS else below
        if key in counts:
            continue
        counts[key] = len(FILES[file].lines[name])
        for used in FILES[file].uses(name) if crate in PARTS else ():
            if used in FILES[file].lines:
                wanted.append((crate, list(file.relative_to(CRATES / crate / "specs").with_suffix("").parts), used))
            elif used in FILES[file].imports:
                wanted.append(FILES[file].imports[used])
    return met, below


def table(counts):
    crates = {}
    for (crate, _, _), lines in counts.items():
        crates[crate] = crates.get(crate, 0) + lines
    for crate, lines in sorted(crates.items(), key=lambda row: -row[1]):
        print(f"{lines:5}  {crate}")
    print(f"{sum(crates.values()):5}  in all")


def main():
    program = (CRATES / "privilege_cli/src/program.rt").read_text()
    clauses = re.search(r"(?ms)^pub fn run<.*?^(    ensures.*?)^\{", program)[1]
    known = imports(program.split("\n"))
    met, below = follow([known[name] for name in names(clauses) if name in known])
    print(f"{len(clauses.splitlines())} lines of clauses, and of definitions in the parts of the program:")
    table(met)
    print("named by these, of the crates below:")
    table(below)
    file = place("privilege_cli", ["Program"])[0]
    runs = sorted(name for name in FILES[file].uses("RunsCommand") if re.match("Runs(?!Command)", name))
    reached = {name: follow([FILES[file].imports[name]])[0] for name in runs}
    print("reached from the definition of a command, and from no other:")
    for name, found in reached.items():
        others = {key for other in reached if other != name for key in reached[other]}
        print(f"{sum(found.values()):5} {sum(lines for key, lines in found.items() if key not in others):5}  {name}")
    own = [file for kind in ("src", "specs", "proofs") for file in (CRATES / "privilege_cli" / kind).rglob("*") if file.is_file()]
    print(f"{sum(len(file.read_text().splitlines()) for file in own)} lines of privilege_cli's own")
    if "--names" in sys.argv:
        for (crate, file, name), lines in sorted({**met, **below}.items(), key=str):
            print(f"{lines:5}  {crate}.{file.stem}.{name}")


if __name__ == "__main__":
    main()
