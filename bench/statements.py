#!/usr/bin/env python3
"""Whether two commits state the same: the clauses of all functions, and all that stands in specs/.

    bench/statements.py OLD [NEW]     # of two commits; NEW left out: of the work tree
    bench/statements.py OLD NEW --all # tells each difference whole

Where a definition stands may change, and the crates' names. So a statement is its text, without comments and imports; and
for each name in it of another definition, a sum of that one with what it leads to, five levels down. A function's clauses go under its
head, and a type's declaration is a statement too. `pub` may come and go.
It prints how many statements stand on both sides and which stand on one alone, and ends with status 1 where there are such.
"""
import collections
import hashlib
import pathlib
import re
import subprocess
import sys
import tempfile

ROOT = pathlib.Path(__file__).resolve().parent.parent
IMPORT = re.compile(r"^\s*(?:ghost )?use Rattle\.([\w.]+?)(?:\.\{([^}]*)\})?(?: as ([\w-]+))?;?\s*$", re.M)
WORD = re.compile(r"[^\s(){}\[\],;`]+")
CLAUSE = re.compile(r"^\s*(ensures|requires|ghost (?!use))")
BEGINS = re.compile(r"\s*(?:pub(?:\(\w+\))? )?(?:const (?=fn))?(fn|struct|enum|trait|impl|type|const)\b")
PUBLIC = re.compile(r"\bpub(\(\w+\))? ")

# So many levels of definitions are looked into below a statement.
DEPTH = 5


def blocks_of(text):
    """The blocks of a file of definitions, each with the head of the module that it stands in."""
    head, found, lines = "", [], []
    for line in [*text.splitlines(), ""]:
        if re.match(r"\s*(--|use )", line) or re.fullmatch(r"pub mod \w+", line):
            continue
        if line.startswith("module _"):
            head = line
        elif line.strip():
            lines.append(line)
        elif lines:
            within = head if lines[0].startswith(" ") else ""
            found.append("\n".join([within, *lines]).strip("\n"))
            head, lines = within and head, []
    return found


def clauses_of(text):
    """What a source file states: the clauses of each function under its whole head and its `impl`, and each type as it is declared."""
    within, head, clause, kind = "", [], [], None
    for line in [*text.splitlines(), ""]:
        bare = line.strip()
        begins = BEGINS.match(line)
        if kind == "type":
            head.append(bare)
            if line.startswith("}") or line.endswith(";"):
                yield "\n".join(head)
                kind = None
        elif clause and (CLAUSE.match(line) or bare in ("{", "{}", "")):
            yield "\n".join([*head, *clause])
            clause = [bare] if CLAUSE.match(line) else []
        elif CLAUSE.match(line):
            clause = [bare]
        elif clause:
            clause.append(bare)
        elif begins and begins[1] == "impl":
            within = kind = None
            within, head = bare, [bare]
        elif begins and begins[1] in ("struct", "enum", "type", "const") and not line.startswith(" "):
            head, kind = [PUBLIC.sub("", bare)], "type"
            if bare.endswith((";", "}")):
                yield head[0]
                kind = None
        elif begins:
            inside = [within] if line.startswith(" ") and within else []
            head, kind = [*inside, PUBLIC.sub("", bare)], "head"
        elif kind == "head" and bare not in ("{", "{}", ""):
            head.append(bare)
        if bare in ("{", "{}"):
            kind = None


def imports_of(text):
    """What each name of a file leads to: the module, and the name that it has there."""
    names = {}
    for module, listed, alias in IMPORT.findall(text):
        for name in filter(None, (n.strip() for n in listed.split(","))):
            own, _, other = name.partition(" as ")
            names[other or own] = (module, own)
        if not listed:
            names[alias or module.split(".")[-1]] = (module, None)
    return names


def module_of(path, folder):
    crate, kind, *rest = path.relative_to(folder).with_suffix("").parts
    return ".".join([crate, kind, *rest])


class Commit:
    """All that a folder of crates states."""

    def __init__(self, folder):
        self.texts = {module_of(p, folder): p.read_text() for p in sorted(folder.glob("*/specs/**/*.antt"))}
        self.blocks = {module: blocks_of(text) for module, text in self.texts.items()}
        self.heads = {module: self.heads_of(blocks) for module, blocks in self.blocks.items()}
        self.named, self.sums = {}, {}
        self.sources = [p.read_text() for p in sorted(folder.glob("*/src/**/*.rt"))]

    @staticmethod
    def heads_of(blocks):
        """Which block a name of a module stands in."""
        found = {}
        for block in blocks:
            for word in re.findall(r"^\s*(?:(?:abbrev|unfoldable|opaque|pub|record|data)\s+)*([^\s:({]+)", block, re.M):
                found.setdefault(word, block)
        return found

    def led_to(self, module, name, depth):
        """What a name leads to: a sum of the definition with what this leads to, or the path where that isn't a definition here."""
        if module not in self.heads:
            return f"{module}.{name}"
        block = self.heads[module].get(name) if name else None
        return self.sum_of(module, block, depth) if block else name or module.split(".")[-1]

    def names_of(self, module):
        """What each name in a module of specs/ leads to: its own definitions, and what it imports."""
        if module not in self.named:
            own = {name: (module, name) for block in self.blocks[module] for name in list(self.heads_of([block.split("where\n")[0]]))[:1]}
            self.named[module] = own | imports_of(self.texts[module])
        return self.named[module]

    def sum_of(self, module, block, depth):
        """A sum of a definition with what it leads to, so many levels down."""
        key = (module, block, depth)
        if key not in self.sums:
            whole = self.with_names(block, self.names_of(module), depth - 1) if depth else block
            self.sums[key] = hashlib.sha256(whole.encode()).hexdigest()
        return self.sums[key]

    def with_names(self, text, names, depth=DEPTH):
        """A statement, and after it each name in it that leads somewhere, with what it leads to."""
        words = {part for word in WORD.findall(text) for part in {word, word.split(".")[0]}}
        told = [text]
        for name in sorted(names):
            if name in words or ("◌" in name and all(sign in words for sign in name.split("◌") if sign)):
                told.append(f"{name}: {self.led_to(*names[name], depth)}")
        return "\n".join(told)

    def statements(self):
        found = collections.Counter()
        for module, blocks in self.blocks.items():
            found.update(self.with_names(block, self.names_of(module)) for block in blocks)
        for text in self.sources:
            names = imports_of(text)
            found.update(self.with_names(clause, names) for clause in clauses_of(text))
        return found


def commit(name):
    if name is None:
        return Commit(ROOT / "crates").statements()
    with tempfile.TemporaryDirectory() as place:
        archive = subprocess.run(["git", "-C", ROOT, "archive", name, "crates"], check=True, capture_output=True).stdout
        subprocess.run(["tar", "-x", "-C", place], input=archive, check=True)
        return Commit(pathlib.Path(place) / "crates").statements()


def main():
    words = [w for w in sys.argv[1:] if not w.startswith("--")]
    if not words:
        raise SystemExit(__doc__)
    old, new = commit(words[0]), commit(words[1] if words[1:] else None)
    for mark, rest in (("-", old - new), ("+", new - old)):
        for text in sorted(rest.elements()):
            print(mark, text if "--all" in sys.argv else text.splitlines()[0])
    print(f"{(old & new).total()} statements on both sides, {(old - new).total()} in the first alone, {(new - old).total()} in the second alone")
    return 1 if old != new else 0


sys.exit(main())
