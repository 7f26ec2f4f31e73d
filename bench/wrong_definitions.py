#!/usr/bin/env python3
"""Tries wrong definitions of the theorems over all nodes: each is to be refused by the crate whose theorem stands over it.

    bench/wrong_definitions.py [--only WORD] [CRATE ..]

bench/wrong-definitions/CRATE/NAME.edit turns one rule of a definition, as crates/NAME/must-fail/*.edit turn a body: a
guard of the machine of a chunk, what an event makes of a world, or what a law asks of a reading or says of it. It works
on a copy of the repository, without the worked runs of the machine of a chunk, so that the laws alone judge (the other
crates keep their worked examples, which are few: that a law refuses each too is seen by the function whose contract
isn't proved then), and it lets rt must-fail try the edits there. It prints a line for each, and ends with status 1 where
one is let through, refused for a name that it takes away alone, or not tried. It is no part of the gate: there a
definition is judged by the laws that stand over it."""

import argparse
import os
import re
import shutil
import subprocess
import sys
import tempfile

ROOT = os.path.dirname(os.path.dirname(os.path.abspath(__file__)))
EDITS = os.path.join(ROOT, "bench", "wrong-definitions")
# Rows that compute, which would refuse an edit before a law does.
WORKED = {"gs_laws_chunk": ["Worked", "Carried"]}
# What rt must-fail says: "rt: must-fail CRATE/NAME.edit: refused, .."
JUDGED = re.compile(r"rt: must-fail (\w+)/(\S+)\.edit: (.*)")


def without_worked_runs(folder, crate):
    """Takes the worked runs out of a copy of a crate, and the function whose contract names them."""
    for name in WORKED.get(crate, []):
        for part in ("specs/machine", "proofs/lemmas/machine"):
            path = os.path.join(folder, part, f"{name}.antt")
            if os.path.exists(path):
                os.remove(path)
                library = os.path.join(folder, f"{part}.antt")
                with open(library, encoding="utf-8") as file:
                    kept = [line for line in file if not re.fullmatch(rf"(pub )?mod {name}\n", line)]
                with open(library, "w", encoding="utf-8") as file:
                    file.writelines(kept)
    if crate not in WORKED:
        return
    shutil.rmtree(os.path.join(folder, "proofs", "machine", "worked_runs_are_runs_of_the_machine"), ignore_errors=True)
    library = os.path.join(folder, "src", "lib.rt")
    with open(library, encoding="utf-8") as file:
        text = file.read()
    with open(library, "w", encoding="utf-8") as file:
        file.write(re.sub(r"\bworked_runs_are_runs_of_the_machine,?\s*", "", text))
    root = os.path.join(folder, "src", "machine.rt")
    with open(root, encoding="utf-8") as file:
        text = file.read()
    text = re.sub(r"(///[^\n]*\n)+(pub )?fn worked_runs_are_runs_of_the_machine\(\)\n(    [^\n]*\n)*\{\}\n", "", text)
    text = re.sub(r"ghost use Rattle\.\w+\.specs\.machine\.(Worked|Carried) as \w+;\n", "", text)
    with open(root, "w", encoding="utf-8") as file:
        file.write(text)


def tried(crate, word):
    """Has the edits of a crate tried in a copy, and answers their names with what became of each."""
    names = sorted(name for name in os.listdir(os.path.join(EDITS, crate)) if word in name)
    with tempfile.TemporaryDirectory() as place:
        copy = os.path.join(place, "repository")
        shutil.copytree(ROOT, copy, ignore=shutil.ignore_patterns("out", ".git", "must-fail", "wrong-bodies"))
        folder = os.path.join(copy, "crates", crate)
        without_worked_runs(folder, crate)
        os.makedirs(os.path.join(folder, "must-fail"))
        for name in names:
            shutil.copy(os.path.join(EDITS, crate, name), os.path.join(folder, "must-fail", name))
        subprocess.run(["rt", "check"], cwd=folder, check=True, stdout=subprocess.DEVNULL)
        said = subprocess.run(["rt", "must-fail", crate], cwd=copy, capture_output=True, text=True, check=False)
    found = {match[2]: match[3] for match in JUDGED.finditer(said.stdout + said.stderr)}
    return [(name.removesuffix(".edit"), found.get(name.removesuffix(".edit"), "not tried")) for name in names]


def main():
    parser = argparse.ArgumentParser(description=__doc__, formatter_class=argparse.RawDescriptionHelpFormatter)
    parser.add_argument("--only", default="", metavar="WORD")
    parser.add_argument("crates", nargs="*", metavar="CRATE")
    options = parser.parse_args()
    crates = options.crates or sorted(os.listdir(EDITS))
    judged = [(crate, *one) for crate in crates for one in tried(crate, options.only)]
    for crate, name, verdict in judged:
        print(f"{crate}/{name}: {verdict}")
    refused = sum(verdict.startswith("refused") and "only b" not in verdict for _, _, verdict in judged)
    print(f"{refused} refused, {len(judged) - refused} not")
    sys.exit(refused != len(judged))


if __name__ == "__main__":
    main()
