#!/usr/bin/env python3
"""Counts what CONTRIBUTING.md limits: the sizes of crates and files, wide lines, wrong bodies, paths of crates, and the
libraries that a crate hands on whole.

    tests/sizes.py          tells what is over a limit, and ends with status 1 where there is any
    tests/sizes.py --lower  takes down the numbers of what is listed below and fell; none is ever raised

What doesn't keep a limit yet is listed here by name, each with its number, which may only fall. A number that fell and
is still listed is told, too, so that it can't rise again unseen. tests/pages.py asks all of this.
"""

import pathlib
import re
import sys

TOP = pathlib.Path(__file__).resolve().parent.parent
WIDTH = 100

# What is counted: the most that it may be, and what it is called.
LIMITS = {
    "lines": (1500, "lines without its tests"),
    "functions": (100, "functions without its tests"),
    "wrong bodies": (6, "wrong bodies"),
    "wide lines": (0, f"lines of code and definitions over {WIDTH} columns"),
    "file": (800, "lines in one file"),
    "paths": (5000, "paths through crates.txt"),
    "whole": (4, "libraries handed on whole by its definitions and lemmas"),
    "whole code": (8, "libraries handed on whole by its code"),
}

# begin of the list
LISTED = {}
# end of the list

FUNCTION = re.compile(r"\s*(?:pub(?:\([a-z]+\))? )?fn \w+")
IMPORT = re.compile(r"\s*(?:pub |ghost )*use ")
HANDS_ON = re.compile(r"pub use Rattle\.(\w+)\.(specs|proofs) as \w+")


def lines_of(path):
    return path.read_text().splitlines()


def is_wide(line):
    return len(line) > WIDTH and not IMPORT.match(line) and '"' not in line


def counted(top):
    """Each (kind, name, count)."""
    for folder in sorted(path for path in (top / "crates").iterdir() if (path / "src").is_dir()):
        name = folder.name
        sources = sorted(folder.glob("src/**/*.rt"))
        specs = sorted(folder.glob("specs/**/*.antt"))
        code = [line for file in sources if file.name != "tests.rt" for line in lines_of(file)]
        yield "lines", name, len(code)
        yield "functions", name, sum(bool(FUNCTION.match(line)) for line in code)
        yield "wrong bodies", name, len(list(folder.glob("must-fail/*.edit")))
        yield "wide lines", name, sum(is_wide(line) for file in sources + specs for line in lines_of(file))
        for file in sources + specs + sorted(folder.glob("proofs/**/*.antt")):
            yield "file", str(file.relative_to(top)), len(lines_of(file))
    for name, count in paths(top).items():
        yield "paths", name, count
        yield "whole", name, whole(top, name, "specs") + whole(top, name, "proofs")
        yield "whole code", name, whole_code(top, name)
    for file in sorted([*top.glob("tests/*.py"), *top.glob("bench/*.py"), top / "build", top / "rdb"]):
        yield "file", str(file.relative_to(top)), len(lines_of(file))


def paths(top):
    """Of each crate how many paths lead through crates.txt from it down, itself counted. rt sums a crate's sources once for
    each of them, so that a build, and the gate, take minutes for some hundred thousand."""
    named = {}
    for line in (top / "crates.txt").read_text().splitlines():
        words, colon, uses = line.partition("#")[0].partition(":")
        if colon:
            named[words.split()[0]] = uses.split()
    found = {}
    while len(found) < len(named):
        ready = [name for name in named if name not in found and all(use in found or use not in named for use in named[name])]
        found |= {name: 1 + sum(found.get(use, 0) for use in named[name]) for name in ready}
        if not ready:
            sys.exit("crates.txt: crates stand on each other")
    return found


def whole(top, crate, part):
    """How many libraries a crate hands on whole, each with those that it hands on itself. The prover takes the modules of
    each by each way that leads there, and keeps them in memory."""
    file = top / "crates" / crate / part / "Lib.antt"
    lines = lines_of(file) if file.is_file() else []
    return sum(1 + whole(top, found[1], found[2]) for found in map(HANDS_ON.fullmatch, lines) if found)


def whole_code(top, crate):
    """The same of its code: the crates that `pub use` names."""
    file = top / "crates" / crate / "src/lib.rt"
    text = file.read_text() if file.is_file() else ""
    found = set()
    for path, _, inside in re.findall(r"^pub use ([\w:]+?)(::\{([^}]*)\})?;", text, re.M):
        last = path.split("::")[-1]
        found |= {last if name.strip() == "self" else name.strip() for name in inside.split(",")} if inside else {last}
    return sum(1 + whole_code(top, name) for name in found if (top / "crates" / name / "src").is_dir())


def faults(top, listed):
    """Each (kind, name, what is wrong): what is over its limit and not listed, or not what is listed."""
    left = {(kind, name) for kind, names in listed.items() for name in names}
    for kind, name, count in counted(top):
        most, called = LIMITS[kind]
        left.discard((kind, name))
        number = listed.get(kind, {}).get(name)
        if number is None and count > most:
            yield kind, name, f"{count} {called}, and {most} are the most"
        elif number is not None and count > number:
            yield kind, name, f"{count} {called}, and the {number} that are listed may only fall"
        elif number is not None and count < number:
            yield kind, name, f"{count} {called}, and {number} are listed: tests/sizes.py --lower"
        elif number is not None and count <= most:
            yield kind, name, f"{count} {called}, which needs no place in the list: tests/sizes.py --lower"
    for kind, name in sorted(left):
        yield kind, name, f"listed for its {kind}, and it isn't there: tests/sizes.py --lower"


def lower(path):
    """Writes the list anew: what fell is lowered, and what keeps its limit now, or is gone, is taken out."""
    found = {(kind, name): count for kind, name, count in counted(TOP)}
    text = ["LISTED = {"]
    for kind in LIMITS:
        kept = {name: min(number, found[kind, name]) for name, number in LISTED.get(kind, {}).items() if (kind, name) in found}
        kept = {name: number for name, number in kept.items() if number > LIMITS[kind][0]}
        if kept:
            text += [f'    "{kind}": {{', *(f'        "{name}": {number},' for name, number in sorted(kept.items())), "    },"]
    text.append("}")
    front, rest = path.read_text().split("# begin of the list\n", 1)
    back = rest.split("# end of the list\n", 1)[1]
    path.write_text(front + "# begin of the list\n" + "\n".join(text) + "\n# end of the list\n" + back)


def main(words):
    if words == ["--lower"]:
        lower(pathlib.Path(__file__))
        return 0
    if words:
        sys.exit(__doc__)
    found = list(faults(TOP, LISTED))
    for _, name, what in found:
        print(f"{name}: {what}")
    listed = sum(len(names) for names in LISTED.values())
    print(f"sizes: {len(found)} faults, {listed} that are listed")
    return 1 if found else 0


if __name__ == "__main__":
    sys.exit(main(sys.argv[1:]))
