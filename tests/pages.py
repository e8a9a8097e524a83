#!/usr/bin/env python3
"""Compares the pages with the sources, so that no page goes stale, and looks at a few rules of the house. Builds nothing.

    tests/pages.py              tells each fault of the pages, and ends with status 1 where there is one
    tests/pages.py --audit      prints the definitions that the headline reaches, for docs/audit.md
    tests/pages.py --self-test  breaks a copy of the tree in several ways, and sees that each is told
"""

import collections
import functools
import pathlib
import re
import shutil
import subprocess
import sys
import tempfile

import sizes

TOP = pathlib.Path(__file__).resolve().parent.parent
WIDTH = 120
HEADS = ["Stands on", "Calls", "Promises", "Definitions", "Only tested", "May touch"]
MARKER = "MINUTES"  # stands in a page for a figure that is still to be measured
HEADLINE = "**The headline.**"
STATUSES = "The command line, the exit status and the line on errors"
README_LINES = 90
FAILED = 70  # the status of ./rdb and build, which the program never has
ENDINGS = ("crates/rdb_program/src/ending.rt", "crates/sink_runs/src/ending.rt")
MAP = "docs/architecture.md"
KIT = "docs/audit.md"
TOP_CALL = ("rdb_program", "src/run.rt", "run_program")

TICKED = re.compile(r"`([^`\n]+)`")
PATH = re.compile(r"[\w.*-]+(?:/[\w.*-]+)*/?")
SUFFIXES = (".md", ".py", ".rt", ".antt", ".edit", ".txt", ".http", ".reply", ".toml", ".c")
FOLDERS = ("crates", "docs", "tests", "bench", "examples", "src", "specs", "proofs", "must-fail", ".ci")
WORD = re.compile(r"[A-Za-z_]\w*(?:::[A-Za-z_]\w*)?")


# The tree


class Tree:
    """A copy of the repository, with what is read of it once."""

    def __init__(self, top, kit):
        self.top = top
        self.kit = kit
        self.stands_on = {}
        for line in (top / "crates.txt").read_text().splitlines():
            found = re.match(r"([a-z0-9_]+)[^:#]*:(.*)", line)
            if found:
                self.stands_on[found[1]] = found[2].split("#")[0].split()
        self.pages = sorted(
            [p for p in top.glob("*.md")]
            + [p for p in top.glob("docs/*.md")]
            + [p for p in top.glob("bench/*.md")]
            + [p for p in top.glob("crates/*/README.md")]
        )

    @functools.lru_cache(maxsize=None)
    def text(self, path):
        return path.read_text() if path.is_file() else ""

    def crate(self, name):
        return self.top / "crates" / name

    @functools.lru_cache(maxsize=None)
    def source(self, name):
        files = sorted(self.crate(name).glob("src/**/*.rt"))
        return "\n".join(self.text(f) for f in files if f.name != "tests.rt")

    @functools.lru_cache(maxsize=None)
    def definitions(self, name):
        return "\n".join(self.text(f) for f in sorted(self.crate(name).glob("specs/**/*.antt")))

    @functools.lru_cache(maxsize=None)
    def functions(self, name):
        """The functions of a crate: (type or "", name) to the labels of their clauses and the words in them."""
        found = collections.defaultdict(set)
        owner, current = "", None
        for line in self.source(name).splitlines():
            if re.match(r"(?:pub )?(?:impl|trait)\b", line):
                target = re.sub(r"<[^<>]*>", "", re.sub(r"<[^<>]*>", "", line)).split(" where ")[0]
                owner = re.findall(r"[A-Za-z_]\w*", re.split(r"\bfor\b|\btrait\b|\bimpl\b", target)[-1].split(":")[0])[0]
            elif line.startswith("}"):
                owner = ""
            signature = re.match(r"\s*(?:pub(?:\(crate\))? )?fn (\w+)", line)
            if signature:
                current = found[(owner, signature[1])]
            label = re.match(r"\s*ensures (\w+) \{", line)
            if label and current is not None:
                current.add(label[1])
            if current is not None and not signature:
                current.update(f"in {word}" for word in re.findall(r"\b[A-Z]\w+", line))
            if line.strip() == "{" or line.endswith(("{}", ";")) or (signature and line.endswith("{")):
                current = None  # the contract ends
        return dict(found)

    @functools.lru_cache(maxsize=None)
    def fields(self, record):
        """The fields of the definitions of that name, in any crate."""
        found = set()
        for name in self.stands_on:
            for body in re.findall(rf"\b(?:record|data) {re.escape(record)}\b.*?(?=\n\n|\Z)", self.definitions(name), re.S):
                found.update(re.findall(r"^\s+pub (\w+) :", body, re.M))
        return found

    def labels(self, name, word):
        """The labels of a word of a page: of a function's clauses and of the records in them, or of a definition."""
        owner, _, called = word.rpartition("::")
        all_functions = self.functions(name)
        fits = [s for (o, f), s in all_functions.items() if f == called and (not owner or o == owner)]
        fits += [s for (o, f), s in all_functions.items() if not owner and o == called]
        fits += [{f"in {called}"}] if self.fields(called) else []
        words = set().union(*fits)
        cited = set().union(*(self.fields(word[3:]) for word in words if word.startswith("in ")))
        return words | cited if fits else None

    def knows(self, name, word):
        """Whether a crate has what a page calls by this word: a function, a type, a clause, a definition or a field."""
        owner, _, called = word.rpartition("::")
        if owner and not re.search(rf"\b{owner}\b", self.source(name)):
            return False
        modules = set(re.findall(r"^(?:pub )?mod (\w+)", self.source(name), re.M)) | {"crate", "self", "super"}
        brought = re.findall(rf"^(?:pub )?use (\w+)[^;]*\b{owner}\b", self.source(name), re.M) if owner else []
        if set(brought) - modules:
            return True  # another crate's type
        said = re.escape(called)
        in_source = rf"\b(?:fn|struct|enum|trait|type|const|static) {said}\b|\bensures {said} \{{|\bghost {said}\b"
        in_specs = rf"^(?:\s+pub {said} :|(?:abbrev |unfoldable |transparent )?(?:pub )?(?:record |data )?{said}\b)"
        handed_on = rf"\bpub use [^;]*\b{said}\b"
        variant = rf"^\s+{said}(?:,| \{{|\()" if owner else r"(?!)"
        return bool(
            re.search(in_source, self.source(name))
            or re.search(handed_on, self.source(name))
            or re.search(variant, self.source(name), re.M)
            or re.search(in_specs, self.definitions(name), re.M)
        )

    def name_of(self, page):
        return str(page.relative_to(self.top))


def blocks(text):
    """The lines of a page: (number, line, "fence language" or None outside of fences)."""
    fence = None
    for number, line in enumerate(text.splitlines(), 1):
        if line.startswith("```"):
            fence = None if fence is not None else line[3:].strip()
            continue
        yield number, line, fence


def rows(text, head):
    """The rows of the first table under a head of the second level: (number, cells)."""
    under, seen = False, 0
    for number, line, fence in blocks(text):
        if line.startswith("## "):
            under = line[3:] == head
        elif under and fence is None and line.startswith("|"):
            seen += 1
            if seen > 2:
                yield number, [cell.strip() for cell in line.strip().strip("|").split("|")]
        elif seen:
            return


def section(text, head):
    found = re.search(rf"^## {re.escape(head)}\n(.*?)(?=^## |\Z)", text, re.M | re.S)
    return found[1] if found else ""


# The checks: each yields (page, line or 0, what is wrong)


def crate_pages(tree):
    for name in tree.stands_on:
        page = tree.crate(name) / "README.md"
        if not page.is_file():
            yield page, 0, "the crate has no page"
            continue
        yield page, name


def fixed_heads(tree):
    for page, *more in crate_pages(tree):
        if len(more) > 1:
            yield (page, *more)
            continue
        lines = [line for _, line, fence in blocks(tree.text(page)) if fence is None]
        if lines[0] != f"# {more[0]}":
            yield page, 1, f"the first line is not '# {more[0]}'"
        heads = [line[3:] for line in lines if line.startswith("## ")]
        if heads != HEADS:
            yield page, 0, f"the heads are {heads} and not {HEADS}"


def with_pages(tree):
    return [(page, more[0]) for page, *more in crate_pages(tree) if len(more) == 1]


def stands_on(tree):
    for page, name in with_pages(tree):
        said = re.findall(r"^- `(\w+)`: \S", section(tree.text(page), "Stands on"), re.M)
        if "std alone." in section(tree.text(page), "Stands on") and not said:
            said = []
        if said != tree.stands_on[name]:
            yield page, 0, f"stands on {said}, and crates.txt says {tree.stands_on[name]}"


def wrong_bodies(tree):
    for page, name in with_pages(tree):
        said = [w for _, cells in rows(tree.text(page), "Promises") for w in TICKED.findall(cells[-1])]
        there = [edit.stem for edit in tree.crate(name).glob("must-fail/*.edit")]
        for word, count in collections.Counter(said).items():
            if word not in there:
                yield page, 0, f"there is no wrong body {word}"
            elif count > 1:
                yield page, 0, f"the wrong body {word} is named {count} times"
        for word in sorted(set(there) - set(said)):
            yield page, 0, f"the wrong body {word} is not named"


def calls_and_clauses(tree):
    """The words of the tables of calls and promises exist in the crate; what stands behind a colon is a clause of it."""
    for page, name in with_pages(tree):
        for head, place in (("Calls", 0), ("Promises", 1)):
            for number, cells in rows(tree.text(page), head):
                if len(cells) != (2 if head == "Calls" else 3):
                    yield page, number, f"a row of {head} has {len(cells)} cells"
                    continue
                yield from words_of_cell(tree, page, name, number, cells[place])


def words_of_cell(tree, page, name, number, cell):
    for part in cell.split(";"):
        words = [w for w in TICKED.findall(part) if WORD.fullmatch(w)]
        for word in words:
            if not tree.knows(name, word):
                yield page, number, f"{name} has no {word}"
        before, colon, behind = part.partition("`: `")
        if not colon:
            continue
        called = [w for w in TICKED.findall(before + "`") if WORD.fullmatch(w)]
        for clause in [w for w in TICKED.findall("`" + behind) if re.fullmatch(r"[a-z_]\w*", w)]:
            for word in called:
                labels = tree.labels(name, word)
                if labels is not None and clause not in labels:
                    yield page, number, f"{word} has no clause {clause}"


def hands_on(file):
    """Whether a file of specs/ has no definition, and only passes on modules of a crate further down."""
    lines = file.read_text().splitlines() if file.is_file() else [""]
    return all(line.startswith(("--", "pub use ")) for line in lines)


def definitions(tree):
    """Each file of specs/ that defines something is read aloud on the page of its crate."""
    for page, name in with_pages(tree):
        said = TICKED.findall(section(tree.text(page), "Definitions"))
        for spec in sorted(tree.crate(name).glob("specs/**/*.antt")):
            path = str(spec.relative_to(tree.crate(name)))
            if spec.name != "Lib.antt" and path not in said and not hands_on(spec):
                yield page, 0, f"Definitions doesn't name {path}"


def each_once(tree, said):
    """What is wrong where a list doesn't have each crate once."""
    if sorted(said) != sorted(tree.stands_on):
        odd = sorted((collections.Counter(said) - collections.Counter(list(tree.stands_on))).elements())
        return f"lacks {sorted(set(tree.stands_on) - set(said))}, and has too often {odd}"


def crate_map(tree):
    """The map has each crate once, in the rows of the picture."""
    page = tree.top / MAP
    found = {cells[0]: re.findall(r"\]\(\.\./crates/(\w+)/README\.md\)", cells[1]) for _, cells in rows(tree.text(page), "The crates")}
    wrong = each_once(tree, [name for names in found.values() for name in names])
    if wrong:
        yield page, 0, f"the map {wrong}"
    for row, names in picture(tree).items():
        if sorted(names) != sorted(found.get(row, [])):
            yield page, 0, f"the picture's row {row} has {names}, and the map's {found.get(row, [])}"


def picture(tree):
    """The rows of the picture of layers, the lowest first: the crates of each, as they stand."""
    drawn = re.search(r"^```\n(.*?)^```$", section(tree.text(tree.top / MAP), "The layers"), re.M | re.S)
    lines = [re.split(r" {2,}", line.strip()) for line in drawn[1].splitlines() if line.strip()] if drawn else []
    return {row: [name.rstrip("*") for name in names] for row, *names in reversed(lines)}


def layers(tree):
    """The picture has each crate once, and each stands only on crates further down, or before it in its row."""
    page, seen = tree.top / MAP, set()
    names = [name for row in picture(tree).values() for name in row]
    wrong = each_once(tree, names)
    if wrong:
        yield page, 0, f"the picture {wrong}"
    for name in names:
        above = sorted(set(tree.stands_on.get(name, [])) & set(tree.stands_on) - seen)
        if above:
            yield page, 0, f"in the picture {name} stands on {above}, which don't stand below it"
        seen.add(name)


def short_readme(tree):
    page = tree.top / "README.md"
    lines = len(tree.text(page).splitlines())
    if lines > README_LINES:
        yield page, 0, f"{lines} lines, and {README_LINES} are the most"


def kit_line(tree):
    page = tree.top / KIT
    if f"`{tree.kit}`" not in tree.text(page):
        yield page, 0, f"the kit's line is not `{tree.kit}`"


def slug(head):
    return re.sub(r"[^\w\- ]", "", head.replace("`", "").lower()).replace(" ", "-")


def links(tree):
    for page in tree.pages:
        for number, line, fence in blocks(tree.text(page)):
            if fence is not None:
                continue
            for target in re.findall(r"\]\(([^)\s]+)\)", line):
                if re.match(r"[a-z]+:", target):
                    continue
                path, _, anchor = target.partition("#")
                file = (page.parent / path) if path else page
                if not file.exists():
                    yield page, number, f"the link {target} leads nowhere"
                elif anchor and anchor not in [slug(h) for h in re.findall(r"^#+ (.*)$", tree.text(file.resolve()), re.M)]:
                    yield page, number, f"{path or page.name} has no head #{anchor}"


def is_path(word):
    if not PATH.fullmatch(word) or "NAME" in word or "/out/" in word or word.endswith("out/"):
        return False
    return word.endswith(SUFFIXES) or ("/" in word and word.split("/")[0] in FOLDERS)


def places(tree, page, word):
    """The files that a path on a page means: from the top, beside the page, or in a crate."""
    roots = [tree.top, page.parent, tree.top / "crates"]
    if word.split("/")[0] in ("src", "specs", "proofs", "must-fail") and page.name != "README.md":
        roots += [tree.crate(name) for name in tree.stands_on]
    return [file for root in roots for file in root.glob(word.rstrip("/"))]


def paths(tree):
    for page in tree.pages:
        if page.name == "CHANGELOG.md":
            continue  # it tells of files that are gone
        for number, line, fence in blocks(tree.text(page)):
            if fence is None:
                for word in TICKED.findall(line):
                    if is_path(word) and not places(tree, page, word):
                        yield page, number, f"the path {word} leads nowhere"


def names_in_files(tree):
    """Where a page says `file`: `name`, `name`, the file has these names."""
    said = re.compile(r"`([^`]+)`: ((?:`[^`]+`(?:, | and )?)+)")
    for page in tree.pages:
        for number, line, fence in blocks(tree.text(page)):
            for path, words in said.findall(line) if fence is None else []:
                files = places(tree, page, path) if is_path(path) else []
                for word in TICKED.findall(words) if files else []:
                    if not any(re.search(rf"(?<!\w){re.escape(word)}(?!\w)", tree.text(f)) for f in files):
                        yield page, number, f"{path} has no {word}"


def all_named(tree):
    """Each page of docs/ is named in the README, and each script on the page of its kind."""
    for page, files in (
        ("README.md", "docs/*.md"),
        ("CONTRIBUTING.md", "tests/*.py"),
        ("bench/README.md", "bench/*.py"),
    ):
        said = tree.text(tree.top / page)
        for file in sorted(tree.top.glob(files)):
            if tree.name_of(file) not in said:
                yield tree.top / page, 0, f"{tree.name_of(file)} isn't named"


def has_number(text, name, digits):
    """The text has the number, or writes it as a power of two, and where it defines the name, a line of this definition
    does."""
    said = re.escape(name)
    power = max(int(digits).bit_length() - 1, 0)
    powers = rf"|1 << {power}|2 \^ {power}" if int(digits) == 1 << power else ""
    spelled = rf"(?<!\d)(?:{digits}{powers})(?!\d)"
    text = re.sub(r"(?<=\d)_(?=\d)", "", text)
    defining = re.findall(rf"^.*\bconst {said}\b.*$|^{said}\b.*=.*$", text, re.M) if name else []
    return any(re.search(spelled, part) for part in defining or [text])


def limits(tree):
    """Each limit's number stands in the files that its row names, under the name that it gives."""
    page = tree.top / "docs/limits.md"
    for head in re.findall(r"^## (.*)$", tree.text(page), re.M):
        for number, cells in rows(tree.text(page), head):
            value = re.search(r"\d[\d,]*", cells[1]) if len(cells) > 2 else None
            for cell in cells[2:] if value else []:
                path, *names = TICKED.findall(cell) or [""]
                texts = [tree.text(file) for file in places(tree, page, path)] if is_path(path) else []
                digits = value[0].replace(",", "")
                if texts and not any(has_number(text, name, digits) for text in texts for name in names or [""]):
                    yield page, number, f"{path} doesn't have {value[0]}"


def statuses(tree):
    """The exit statuses of docs/formats.md are those that the program has; that of a failed build is another one."""
    page = tree.top / "docs/formats.md"
    table = sorted(int(cells[0]) for _, cells in rows(tree.text(page), STATUSES))
    code = "".join(tree.text(tree.top / file) for file in ENDINGS)
    there = sorted({int(number) for number in re.findall(r"=> (\d+),", code)})
    if table != there:
        yield page, 0, f"the exit statuses are {table}, and {' and '.join(ENDINGS)} have {there}"
    if FAILED in there:
        yield page, 0, f"the program has the status {FAILED}, which says that it wasn't built"
    for file, wanted in ((tree.top / "rdb", f"exit {FAILED}"), (tree.top / "build", f"FAILED = {FAILED}")):
        if wanted not in tree.text(file):
            yield file, 0, f"a failed build isn't told by {FAILED}"
    if f"`./rdb` and `build` end with {FAILED}" not in section(tree.text(page), STATUSES):
        yield page, 0, f"the status {FAILED} isn't told"


def squeezed(text):
    return " ".join(text.split())


def quoted_clauses(tree):
    """What a page quotes as Rattle stands so in the sources; the README quotes the top call's clause."""
    everywhere = squeezed("\n".join(tree.source(name) for name in tree.stands_on))
    for page in tree.pages:
        for language, code in re.findall(r"^```(\w*)\n(.*?)^```$", tree.text(page), re.M | re.S):
            if language == "rattle" and squeezed(code) not in everywhere:
                yield page, 0, f"the sources don't have the clause that begins {squeezed(code)[:40]!r}"
    if "```rattle\nensures run {" not in tree.text(tree.top / "README.md"):
        yield tree.top / "README.md", 0, "the headline's clause isn't quoted"


def headline(tree):
    said = {}
    for page in tree.pages:
        for quote in re.findall(r"(?:^> .*\n)+", tree.text(page), re.M):
            if HEADLINE in quote:
                said[page] = squeezed(re.sub(r"^> ", "", quote, flags=re.M))
    first = tree.top / "README.md"
    for page in (first, tree.top / "docs/audit.md"):
        if page not in said:
            yield page, 0, "the headline isn't said"
    for page, text in said.items():
        if first in said and text != said[first]:
            yield page, 0, "the headline isn't that of README.md"


def widths(tree):
    for page in tree.pages:
        for number, line, fence in blocks(tree.text(page)):
            if len(line) > WIDTH and not line.startswith("|") and fence != "":
                yield page, number, f"{len(line)} columns"


def markers(tree):
    for page in tree.pages:
        for number, line, _ in blocks(tree.text(page)):
            if MARKER in line:
                yield page, number, f"{MARKER}: a figure is to be measured"


def house_rules(tree):
    """Rules of CONTRIBUTING that can be seen in the sources without a proof; those that are counted are in sizes.py."""
    for kind, name, what in sizes.faults(tree.top, sizes.LISTED):
        yield (tree.top / name if kind == "file" else tree.crate(name)), 0, what
    for name in tree.stands_on:
        folder = tree.crate(name)
        for spec in sorted(folder.glob("specs/**/*.antt")):
            if re.search(r"^use .*\bTheConstants\b", tree.text(spec), re.M):
                yield spec, 0, "a word of specs/ is a constant of the code"
        for source in sorted(folder.glob("src/**/*.rt")):
            if not tree.text(source).startswith("//!"):
                yield source, 1, "the file doesn't begin with //! and what it is about"


# The definitions that the headline reaches


Definition = collections.namedtuple("Definition", "crate file name lines words")


def home(tree, owner, file):
    """The crate and file of a definition. What a crate hands on of one further down stands under that one's name in camel case."""
    while True:
        first, _, rest = file.partition(".")
        further = re.sub(r"(?<!^)([A-Z])", r"_\1", first).lower()
        own = tree.crate(owner) / "specs" / f"{first}.antt"
        if not rest or further not in tree.stands_on or own.is_file() and not hands_on(own):
            return owner, file
        owner, file = further, rest


def read_definitions(tree, crate, path):
    """The definitions of a file of specs/, by name, and its imports: name to (crate, file, name)."""
    text = tree.text(tree.crate(crate) / path)
    imports = {}
    for owner, file, names in re.findall(r"^use Rattle\.(\w+)\.specs\.([\w.]+?)\.\{([^}]*)\}", text, re.M):
        for name in names.split(","):
            name, _, own = name.strip().partition(" as ")
            imports[own or name] = (*home(tree, owner, file), name)
    for owner, file, own in re.findall(r"^use Rattle\.(\w+)\.specs\.([\w.]+) as (\w+)", text, re.M):
        for name in re.findall(rf"\b{own}\.(\w+)", text):
            imports[f"{own}.{name}"] = (*home(tree, owner, file), name)
    found = {}
    for block in re.split(r"\n\s*\n", text):
        code = [line for line in block.splitlines() if line and not line.startswith(("use ", "--"))]
        head = code and re.match(r"(?:(?:abbrev|unfoldable|transparent|pub|record|data) )+([^\s:({]+)", code[0])
        if head:
            words = set(re.findall(r"[A-Za-z_]\w*(?:\.\w+)?", "\n".join(code)))
            words |= {word.split(".")[0] for word in words}
            found[head[1]] = Definition(crate, path, head[1], len(block.splitlines()), words)
    return found, imports


def reached(tree):
    """What the clauses of the top call reach: (definitions of this repository, files of the kit)."""
    crate, path, call = TOP_CALL
    source = tree.text(tree.crate(crate) / path)
    contract = re.search(rf"^pub fn {call}\b.*?^\{{$", source, re.M | re.S)[0]
    contract = "\n".join(line for line in contract.splitlines() if not line.strip().startswith("//"))
    words = set(re.findall(r"[A-Za-z_]\w*", contract))
    todo = []
    for owner, file, names in re.findall(r"^ghost use Rattle\.(\w+)\.specs\.([\w.]+?)\.\{([^}]*)\}", source, re.M):
        todo += [(*home(tree, owner, file), n.strip()) for n in names.split(",") if n.strip() in words]
    ours, kit, files = {}, set(), {}
    while todo:
        owner, file, name = todo.pop()
        if owner not in tree.stands_on:
            if owner != "std":
                kit.add(f"{owner}/specs/{file}")
            continue
        if file.startswith("declared.") or (owner, file, name) in ours:
            continue
        spec = "specs/" + file.replace(".", "/") + ".antt"
        if (owner, file) not in files:
            files[owner, file] = read_definitions(tree, owner, spec)
        found, imports = files[owner, file]
        if name not in found:
            continue
        ours[owner, file, name] = found[name]
        for word in found[name].words:
            if word in imports:
                todo.append(imports[word])
            elif word in found:
                todo.append((owner, file, word))
    return list(ours.values()), sorted(k for k in kit if ".declared." not in k)


def reading_list(tree):
    """File to (lines, names) of what is reached, higher crates first."""
    order = list(tree.stands_on)[::-1]
    files = collections.defaultdict(list)
    for definition in reached(tree)[0]:
        files[f"{definition.crate}/{definition.file}"].append(definition)
    return {
        file: (sum(d.lines for d in found), sorted(d.name for d in found))
        for file, found in sorted(files.items(), key=lambda f: (order.index(f[0].split("/")[0]), f[0]))
    }


def audit(tree):
    """docs/audit.md lists the files that the headline reaches, and about how many lines of them."""
    page = tree.top / "docs/audit.md"
    files = reading_list(tree)
    said = [w for line in tree.text(page).splitlines() if line.startswith("|") for w in TICKED.findall(line)]
    said = [w for w in said if re.fullmatch(r"\w+/specs/[\w/]+\.antt", w)]
    for file in files:
        if said.count(file) != 1:
            yield page, 0, f"{file}, which the headline reaches, stands in {said.count(file)} rows"
    for file in sorted(set(said) - set(files)):
        yield page, 0, f"the headline doesn't reach {file}"
    lines = sum(count for count, _ in files.values())
    about = re.search(r"about (\d+) lines in (\d+) files", squeezed(tree.text(page)))
    if not about or abs(int(about[1]) - lines) > lines // 10 or int(about[2]) != len(files):
        yield page, 0, f"the headline reaches {lines} lines in {len(files)} files"


CHECKS = [
    fixed_heads,
    stands_on,
    wrong_bodies,
    calls_and_clauses,
    definitions,
    crate_map,
    layers,
    short_readme,
    kit_line,
    links,
    paths,
    names_in_files,
    all_named,
    limits,
    statuses,
    quoted_clauses,
    headline,
    widths,
    markers,
    house_rules,
    audit,
]


def faults(top, kit):
    tree = Tree(top, kit)
    return [
        f"{tree.name_of(page)}{f':{number}' if number else ''}: {what}"
        for check in CHECKS
        for page, number, what in check(tree)
    ]


# The self-test


def edit(path, old, new):
    """A change of one place of a file."""

    def change(top):
        text = (top / path).read_text()
        if old not in text:
            raise SystemExit(f"self-test: {path} has no {old!r}")
        (top / path).write_text(text.replace(old, new, 1))

    return change


def remove(path):
    return lambda top: (top / path).unlink()


def add(path, text):
    return lambda top: (top / path).write_text(text)


BREAKS = [
    ("a crate stands on one more", edit("crates.txt", "lists:", "lists: hex"), "stands on"),
    ("a head is renamed", edit("crates/lists/README.md", "## Only tested", "## Tested"), "the heads are"),
    ("a page is gone", remove("crates/outside/README.md"), "the crate has no page"),
    ("a wrong body is gone", remove("crates/fault_counts/must-fail/fault_is_not_counted.edit"), "no wrong body"),
    ("a wrong body is new", add("crates/fault_counts/must-fail/new_one.edit", ""), "new_one is not named"),
    ("a clause is renamed", edit("crates/fault_counts/src/counts.rt", "ensures cause {", "ensures reason {"), "no clause cause"),
    ("a call is renamed", edit("crates/lists/src/listed.rt", "pub fn into_vec", "pub fn to_vec"), "into_vec"),
    ("a definition is new", add("crates/lists/specs/More.antt", ""), "doesn't name specs/More.antt"),
    ("the map lacks a crate", edit(MAP, "[lists](../crates/lists/README.md), ", ""), "the map lacks"),
    ("the picture lacks a crate", edit(MAP, "  fault_counts  ", "  "), "the picture lacks"),
    ("the picture's row is another", edit(MAP, "disks  result_journal  ", "result_journal  "), "the picture's row"),
    ("the picture is upside down", edit(MAP, "disks  result_journal  ", "result_journal  disks  "), "don't stand below it"),
    ("the README is long", edit("README.md", "\n## ", "\n" * 20 + "## "), "90 are the most"),
    ("the kit is another", edit(KIT, "rattle-kit-", "rattle-kit-0"), "the kit's line"),
    ("a link leads nowhere", edit("README.md", "(docs/formats.md)", "(docs/forms.md)"), "leads nowhere"),
    ("an anchor is gone", edit("docs/audit.md", "## What is trusted", "## Trust"), "has no head"),
    ("a path leads nowhere", edit("docs/architecture.md", "`crates.txt`", "`crates.txts/x.md`"), "leads nowhere"),
    ("a script is new", add("bench/new.py", ""), "bench/new.py isn't named"),
    ("a limit is another", edit("crates/http_wire/src/buffer.rt", "16384", "16385"), "doesn't have 16,384"),
    ("a status is gone", edit("docs/formats.md", "| 7 | memory", "| 6 | memory"), "the exit statuses"),
    ("a failed build is told as the program", edit("rdb", "exit 70", "exit 7"), "isn't told by 70"),
    ("a crate grew", edit("crates/http_wire/src/lib.rt", "\n", "\n\n"), "may only fall"),
    ("a crate is too large", edit("crates/lists/src/lib.rt", "\n", "\n" * 1500), "1500 are the most"),
    ("a listed number fell", edit("crates/http_wire/src/lib.rt", "\n\n", "\n"), "--lower"),
    ("a line of code is wide", edit("crates/lists/src/lib.rt", "\n", "\n" + "x" * 101 + "\n"), "over 100 columns"),
    ("a crate is reached too often", edit("crates.txt", "rdb_program: ", "rdb_program: " + "serve_runs " * 9), "3000 are the most"),
    ("a file is too long", add("crates/outside/proofs/Long.antt", "\n" * 801), "800 are the most"),
    ("the clause is another", edit("README.md", "ensures run {", "ensures run { "[:-1] + " x"), "the sources don't have"),
    ("the headline is another", edit("docs/audit.md", "Whatever bytes", "Whichever bytes"), "isn't that of README.md"),
    ("a line is too long", edit("docs/audit.md", "\n## ", "\n" + "long " * 30 + "\n\n## "), "columns"),
    ("a figure is to be measured", edit("docs/limits.md", "\n## ", f"\n{MARKER}\n\n## "), "is to be measured"),
    ("a definition takes a constant", edit("crates/fault_counts/specs/Causes.antt", "use ", "use a.TheConstants.{B}\nuse "), "is a constant"),
    ("the audit lacks a file", edit("docs/audit.md", "rdb_program/specs/Run.antt", "rdb_program/specs/Ran.antt"), "stands in 0 rows"),
]


def self_test(kit):
    failed = 0
    before = set(faults(TOP, kit))
    ignored = shutil.ignore_patterns("out", ".git", "__pycache__", "*.journal")
    for name, change, wanted in BREAKS:
        with tempfile.TemporaryDirectory() as folder:
            copy = pathlib.Path(folder) / "copy"
            shutil.copytree(TOP, copy, ignore=ignored)
            change(copy)
            new = [fault for fault in faults(copy, kit) if fault not in before]
        told = any(wanted in fault for fault in new)
        failed += not told
        print(f"pages, self-test: {name}: {'passed' if told else f'FAILED: {new}'}")
    print(f"{len(BREAKS) - failed} passed, {failed} failed")
    return 1 if failed else 0


def main(words):
    kit = subprocess.run(["rt", "version"], capture_output=True, text=True, check=True).stdout.strip()
    if words == ["--self-test"]:
        return self_test(kit)
    if words == ["--audit"]:
        tree = Tree(TOP, kit)
        files = reading_list(tree)
        for file, (lines, names) in files.items():
            print(f"| `{file}` | {lines} | {', '.join(names)} |")
        print(f"about {sum(count for count, _ in files.values())} lines in {len(files)} files; of the kit:")
        print("\n".join(reached(tree)[1]))
        return 0
    if words:
        sys.exit(__doc__)
    found = faults(TOP, kit)
    for fault in found:
        print(fault)
    print(f"pages: {len(Tree(TOP, kit).pages)} pages, {len(found)} faults")
    return 1 if found else 0


if __name__ == "__main__":
    sys.exit(main(sys.argv[1:]))
