#!/usr/bin/env python3
"""Which definitions have to be believed, and how many lines they are.

    bench/definitions.py              # for the program: what the contracts of its top name, and what that rests on
    bench/definitions.py CRATE ..     # the same for the public calls of these crates
    bench/definitions.py --all        # for the public calls of all crates
    bench/definitions.py --promises   # for the promises of docs/promises.txt
    bench/definitions.py --of NAME .. # for these of them alone
    bench/definitions.py --files ..   # beside it: each file, with the definitions of it

A definition counts where a public contract, a model or a law names it, or another definition that counts does. Imports,
comments, blank lines and worked examples aren't lines of it. Names are read as words, so the count may be too high, not
too low.
"""
import collections
import pathlib
import re
import sys

from promises import listed, places

ROOT = pathlib.Path(__file__).resolve().parent.parent
TOP = ["gs_shell", "gs_shell_threads", "gs_shell_options", "gs_shell_command", "chunkstore"]
BESIDE = ["gs_tests", "gs_keep_tests", "gs_cluster_tests"]
WORD = re.compile(r"[^\s(){}\[\],;`]+")
IMPORT = re.compile(r"use Rattle\.(\w+)\.specs\.([\w.]+?)(?:\.\{([^}]*)\})?(?: as ([\w-]+))?;?\s*$", re.M)
HEAD = re.compile(r"^(?:(?:unfoldable|abbrev|opaque|pub)\s+)+(?:record\s+|data\s+)?([^\s:({]+)|^(?:record|data)\s+([^\s:({]+)")


def imports(text):
    """What a file calls the definitions of other files."""
    names, files = {}, {}
    for crate, module, listed, alias in IMPORT.findall(text):
        for name in filter(None, (n.strip() for n in listed.split(","))):
            own, _, other = name.partition(" as ")
            names[other or own] = (crate, module, own)
        if not listed:
            files[alias or module.split(".")[-1]] = (crate, module)
    return names, files


class File:
    """The definitions of one file, each with its lines."""

    def __init__(self, path):
        self.names, self.files = imports(path.read_text())
        self.lines = {}
        current, is_within = None, False
        for line in path.read_text().splitlines():
            # What stands in a module with parameters is read as if it stood outside.
            if line.startswith("module _"):
                current, is_within = None, True
                continue
            if is_within and line.startswith("  "):
                line = line[2:]
            elif line.strip():
                is_within = False
            if not line.strip() or line.startswith(("--", "use ")):
                current = None if not line.strip() else current
                continue
            head = HEAD.match(line)
            if head:
                current = head.group(1) or head.group(2)
                self.lines[current] = [line]
            elif line[0].isspace():
                if current:
                    self.lines[current].append(line)
            else:
                current = self.clause(line, current)

    def clause(self, line, current):
        """The definition of which a line at the margin is a clause, or none where it begins an example."""
        words = line.split()
        if words[0] in self.lines:
            current = words[0]
        elif re.match(r"^\S+ :", line) or words[0] == "unfolding" or words[1:2] == ["="]:
            return None
        elif current is None:
            signs = [n for n in self.lines if n.strip("◌") in words and "◌" in n]
            current = signs[0] if signs else None
        if current:
            self.lines[current].append(line)
        return current

    def holder(self, name):
        """The definition that has this name, or a field or a case of it."""
        if name in self.lines:
            return name
        for own, lines in self.lines.items():
            if re.search(r"\b(data|record)\b", lines[0]) and any(re.match(rf"\s+(pub )?{re.escape(name)} :", x) for x in lines[1:]):
                return own
        return None


def read_files():
    files = {}
    for path in ROOT.glob("crates/*/specs/**/*.antt"):
        crate = path.relative_to(ROOT / "crates").parts[0]
        module = ".".join(path.relative_to(ROOT / "crates" / crate / "specs").with_suffix("").parts)
        files[crate, module] = File(path)
    return files


def contracts(text):
    """The public contracts, the models and the laws of a source file."""
    yield from (m.group(0) for m in re.finditer(r"^( *)pub fn .*?^\1\{", text, re.S | re.M))
    yield from (m.group(0) for m in re.finditer(r"^\s*ghost (?!use)[^;]*;", text, re.S | re.M))
    yield from (m.group(0) for m in re.finditer(r"^pub trait .*?^\}", text, re.S | re.M))
    for part in re.finditer(r"^impl[^{]* for .*?^\}", text, re.S | re.M):
        yield from (m.group(0) for m in re.finditer(r"^    fn .*?^    \{", part.group(0), re.S | re.M))


def named(text, names, near, own):
    """The definitions that a text names."""
    for word in set(WORD.findall(text)):
        for part in {word, *word.split(".")}:
            if part in names:
                yield names[part]
            if own and part in own[1].lines:
                yield (*own[0], part)
        if word.split(".")[0] in near and "." in word:
            yield (*near[word.split(".")[0]], word.split(".")[1])
    for sign, place in names.items():
        if "◌" in sign and sign.replace("◌", "") and sign.replace("◌", "") in text:
            yield place


def contracts_of(crates):
    """The public contracts of these crates, each with the text of its file."""
    for path in sorted(ROOT.glob("crates/*/src/**/*.rt")):
        if path.relative_to(ROOT / "crates").parts[0] in crates:
            text = path.read_text()
            yield from ((text, contract) for contract in contracts(text))


def promised(names):
    """The contracts of the promises, or of these public functions, each with the text of its file."""
    for crate, name in [(None, name) for name in names] or listed():
        found = list(places(crate, name))
        if not found:
            raise SystemExit(f"no public function with a contract has the name {name}")
        yield from ((path.read_text(), contract) for path, contract in found)


def reached(files, public):
    seen, waiting = set(), []

    def want(places):
        for crate, module, name in places:
            own = files[crate, module].holder(name) if (crate, module) in files else None
            if own and (crate, module, own) not in seen:
                seen.add((crate, module, own))
                waiting.append((crate, module, own))

    for text, contract in public:
        want(named(contract, *imports(text), None))
    while waiting:
        crate, module, name = waiting.pop()
        file = files[crate, module]
        want(named("\n".join(file.lines[name]), file.names, file.files, ((crate, module), file)))
    return seen


def main():
    words = sys.argv[1:]
    names = [w for w in words if not w.startswith("--")]
    crates = names or TOP
    files = read_files()
    if "--all" in words:
        crates = {path.name for path in (ROOT / "crates").iterdir()} - set(BESIDE)
    is_promised = "--promises" in words or "--of" in words
    seen = reached(files, promised(names) if is_promised else contracts_of(crates))
    lines, names = collections.Counter(), collections.defaultdict(list)
    for crate, module, name in sorted(seen):
        lines[crate, module] += len(files[crate, module].lines[name])
        names[crate, module].append(name)
    for crate in sorted({crate for crate, _ in lines}):
        print(f"{crate} {sum(n for (c, _), n in lines.items() if c == crate)}")
        for c, module in sorted(lines):
            if c == crate and "--files" in words:
                print(f"  {module.replace('.', '/')}.antt {lines[c, module]}: {' '.join(names[c, module])}")
    print(f"all {sum(lines.values())} of {sum(len(x) for f in files.values() for x in f.lines.values())}")


main()
