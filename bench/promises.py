#!/usr/bin/env python3
"""Whether each promise of docs/promises.txt is a public function, and each public function that the README names as a promise is listed.

    bench/promises.py

Its last line is 'N passed, M failed', and its status is 0 where none failed."""
import pathlib
import re
import sys

ROOT = pathlib.Path(__file__).resolve().parent.parent
LIST = ROOT / "docs/promises.txt"
SECTION = re.compile(r"^## The five promises$(.*?)^## ", re.S | re.M)


def listed():
    """The crate, if one is named, and the name of each promise."""
    for line in LIST.read_text().splitlines():
        words = line.split("#")[0].split()
        if words:
            yield (words[0] if len(words) > 1 else None), words[-1]


def is_handed_out(source, name):
    """Whether what stands in this file under this name can be named by other crates."""
    root = source.parent / "lib.rt"
    if source == root:
        return True
    text = root.read_text() if root.exists() else ""
    named = any(re.search(rf"\b{name}\b", use) for use in re.findall(r"^pub use [^;]*;", text, re.M))
    return named or re.search(rf"^pub mod {source.stem};", text, re.M) is not None


def contract(text, name):
    """The head of a public function, with its contract: of a method the one of its type."""
    owner, _, own = name.rpartition("::")
    if not owner:
        found = re.search(rf"^pub fn {own}\b.*?^\{{", text, re.S | re.M)
        return found and found.group(0)
    for part in re.finditer(rf"^impl\b[^{{]*\b{owner}\b.*?^\}}", text, re.S | re.M):
        found = re.search(rf"^    pub fn {own}\b.*?^    \{{", part.group(0), re.S | re.M)
        if found:
            return found.group(0)
    return None


def places(crate, name):
    """The files that have a public function of this name, with its contract."""
    for source in sorted(ROOT.glob(f"crates/{crate or '*'}/src/**/*.rt")):
        found = contract(source.read_text(), name)
        if found and "ensures" in found and is_handed_out(source, name.split("::")[0]):
            yield source, found


def named_in_readme():
    """The promises that the README names."""
    section = SECTION.search((ROOT / "README.md").read_text()).group(1)
    for sentence in re.findall(r"((?:`[\w:]+`(?:, )?)+) \(`gs_\w+`\)", section):
        yield from re.findall(r"`([\w:]+)`", sentence)


def main():
    failed, promises = [], list(listed())
    for crate, name in promises:
        count = len(list(places(crate, name)))
        if count != 1:
            failed.append(f"{name}: {count} public functions")
    own = {name for _, name in promises}
    readme = sorted(set(named_in_readme()))
    failed += [f"{name}: named in the README and not listed" for name in readme if name not in own]
    for line in failed:
        print(line)
    print(f"{len(promises) + len(readme) - len(failed)} passed, {len(failed)} failed")
    return 1 if failed else 0


if __name__ == "__main__":
    sys.exit(main())
