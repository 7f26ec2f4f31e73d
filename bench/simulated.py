#!/usr/bin/env python3
"""Tries whether the simulator finds what is wrong: makes wrong bodies in a copy, and runs bench/chunksim there with one of them at a time.

    bench/simulated.py [--seeds N] [--steps N] [--only WORD]

prints for each wrong body the number of steps at which it was found, over all seeds, and what was said. The simulator is built once, with
all of them: a run has the one whose number it is given, and else what stands. There the master writes a checkpoint behind 24 records. The last line is 'N passed, M failed': each is to be found
within the seeds, which are 100 of 2,000 steps if nothing is said, 200,000 steps, and without any of them nothing may be found. A run that
crashes or takes too long fails by itself."""

import argparse
import os
import re
import subprocess
import sys

import beside
import simulate

FOUND = re.compile(r"^seed (\d+), event (\d+): (.*)$", re.M)
# What a run may take at most: so long, and for each so many steps a second more.
LEAST_SECONDS = 120
STEPS_A_SECOND = 1000
# A wrong body by its name: the file of a crate with its edit, or the file and what is turned there.
WRONG = {
    "a server seals after the first edit": "gs_replica/must-fail/a_seal_after_the_first_edit.edit",
    "a copy carries no image": (
        "gs_store",
        "src/copies.rt",
        "slot.copy_out(stamp, with_sealed)",
        "slot.copy_out(stamp, with_sealed && handle.number() == 0)",
    ),
    "a view keeps answerers of lower counts": "gs_view/must-fail/a_view_keeps_answerers_of_lower_counts.edit",
    "a dropped sealed replica is deleted": "gs_store_seal/must-fail/a_dropped_sealed_replica_is_deleted.edit",
    "a repeated edit is numbered anew": "gs_server_lease/must-fail/a_repeated_edit_is_numbered_anew.edit",
    "versions go back at a rollback": (
        "gs_master_state",
        "src/upgrade.rt",
        "self.phase = Phase::Ordinary;\n        RollbackBefore {",
        "self.phase = Phase::Ordinary;\n        self.next_version = 1;\n        RollbackBefore {",
    ),
    "a snapshot raises no count": "gs_edit/must-fail/a_snapshot_raises_no_count.edit",
    "a commit with one chunk unanswered": (
        "gs_master_guard",
        "src/restoring.rt",
        "told.contains(server) && is_prepared_on(prepared, server)",
        "(told.contains(server) || told.is_empty()) && is_prepared_on(prepared, server)",
    ),
    "a commit that can't be recorded has no answer": "gs_master_guard/must-fail/a_commit_with_a_prepared_chunk_unanswered.edit",
    "promises go back at a rollback": "gs_store_seal/must-fail/promises_go_back_at_a_rollback.edit",
    "a client is told before every member has its edit": "gs_server_lease/must-fail/a_client_is_told_before_every_member_has_its_edit.edit",
    "a repeated edit is told done early": (
        "gs_server",
        "src/editing.rt",
        "if !self.is_known_of_all(handle, req) {",
        "if !self.is_known_of_all(handle, req) && req.number == 0 {",
    ),
    "a replica is dropped while rolling back": "gs_master_guard/must-fail/a_replica_is_dropped_while_rolling_back.edit",
    "a restart tells nobody of a rollback": (
        "gs_master",
        "src/restart.rt",
        "tell_all(alloc, config, recorded.epoch, EpochEnd::Rollback)",
        "Ok(Vec::new(alloc))",
    ),
    "a dropped copy loses its trashed image": (
        "gs_store",
        "src/slot.rt",
        "trash_behind(live.replica, self.trash.take())",
        "trash_behind(live.replica, None)",
    ),
    "a checkpoint loses an inverse": (
        "gs_master_state",
        "src/checkpoint.rt",
        "copied_inverses(alloc, &self.inverses)?",
        "copied_inverses(alloc, &self.inverses[..self.inverses.len().saturating_sub(1)])?",
    ),
    "a recovery forgets the replies of a checkpoint": (
        "gs_master_state",
        "src/restart.rt",
        "told_replies(alloc, &checkpoint.replies)?",
        "told_replies(alloc, &checkpoint.replies[..0])?",
    ),
    "a client's write skips a part": "gs_client/wrong-bodies/a_write_skips_a_part.edit",
    "a client's append answers the offset in its chunk": "gs_client_part/must-fail/an_append_answers_the_wrong_offset.edit",
    "a client reads each chunk from the first offset": "gs_client/wrong-bodies/each_chunk_is_read_from_the_first_offset.edit",
}
# So many records make the next tick write a checkpoint: as many as stand, and as many as a seed comes to.
MANY_RECORDS = ("const MANY_RECORDS: u64 = 4096;", "const MANY_RECORDS: u64 = 24;")
# The lowest crate tells all others which wrong body a run has.
LOWEST = "gs_base"
ASKED = """// Which wrong body a run has.

unsafe extern "C" {
    safe fn wrong_body() -> u64;
}

pub fn is_wrong(number: u64) -> bool {
    wrong_body() == number
}
"""


def edits(wrong):
    """The crate, the file, and what is turned there."""
    if not isinstance(wrong, str):
        crate, file, old, new = wrong
        return crate, file, [(old, new)]
    crate = wrong.split("/")[0]
    with open(os.path.join(beside.ROOT, "crates", wrong)) as text:
        lines = text.read().splitlines()
    file = next(line.removeprefix("file: ") for line in lines if line.startswith("file: "))
    olds = [line.removeprefix("old: ") for line in lines if line.startswith("old: ")]
    news = [line.removeprefix("new: ") for line in lines if line.startswith("new: ")]
    return crate, file, list(zip(olds, news))


def inserted(old, new):
    """The statement that the new text has and the old one hasn't, with what stands before it and behind it, if that is all."""
    before = os.path.commonprefix([old, new])
    more = new[len(before) : len(new) - len(old) + len(before)]
    if before + more + old[len(before) :] == new and more.rstrip().endswith(";"):
        return before, more, old[len(before) :]
    return None


def either(number, old, new):
    """Code that is the new where the run has the wrong body of this number, and else the old."""
    asked = f"{LOWEST}::is_wrong({number})"
    old, new = old.strip(), new.strip()
    parts = inserted(old, new)
    if parts:
        before, more, behind = parts
        return f"{before}if {asked} {{ {more.strip()} }}\n{behind}"
    bound = re.match(r"let \w+ = ", old)
    if bound:
        front = bound[0]
        return f"{front}if {asked} {{ {new.removeprefix(front)[:-1]} }} else {{ {old.removeprefix(front)[:-1]} }};"
    if old.startswith("if "):
        return f"if (if {asked} {{ {new[3:-2]} }} else {{ {old[3:-2]} }}) {{"
    if old.startswith("return "):
        return f"if {asked} {{ {new} }}\n{old}"
    if old.endswith(";"):
        return f"if {asked} {{ {new} }} else {{ {old} }}"
    return f"(if {asked} {{ {new} }} else {{ {old} }})"


def replaced(path, old, new):
    with open(path) as text:
        code = text.read()
    if code.count(old) != 1:
        sys.exit(f"{path} has this {code.count(old)} times, and not once: {old}")
    with open(path, "w") as text:
        text.write(code.replace(old, new))


def turn(number, wrong):
    """Makes a wrong body in the copy, under its number."""
    crate, file, turned = edits(wrong)
    for old, new in turned:
        replaced(os.path.join(beside.COPY, "crates", crate, file), old.strip(), either(number, old, new))


def built(name="chunksim", wrong_bodies=WRONG):
    """Builds the simulator, or another program, with all wrong bodies, and answers its path."""
    beside.placed(name, ("src",))
    lowest = os.path.join(beside.COPY, "crates", LOWEST, "src")
    with open(os.path.join(lowest, "wrong.rt"), "w") as file:
        file.write(ASKED)
    replaced(os.path.join(lowest, "lib.rt"), "mod config;\n", "mod config;\nmod wrong;\n\npub use wrong::is_wrong;\n")
    if name == "chunksim":
        replaced(os.path.join(beside.COPY, "crates", "gs_master_plan", "src", "checkpoint.rt"), *MANY_RECORDS)
    for number, wrong in enumerate(wrong_bodies.values(), 1):
        turn(number, wrong)
    try:
        return beside.native(name, f"{name}-wrong")
    finally:
        beside.placed(name, ("src",))


def found(program, number, seeds, steps):
    """Whether something was found, or None where the run didn't come to its end, and what is told of that."""
    words = ["--seed", "1", "--seeds", str(seeds), "--steps", str(steps)]
    seconds = LEAST_SECONDS + seeds * steps // STEPS_A_SECOND
    how = {"env": {**os.environ, "WRONG_BODY": str(number)}, "capture_output": True, "text": True, "errors": "replace", "timeout": seconds}
    try:
        run = subprocess.run([program, *words], **how)
    except subprocess.TimeoutExpired:
        return None, f"not over in {seconds} seconds"
    said = FOUND.search(run.stdout)
    if said:
        return True, f"found at step {(int(said[1]) - 1) * steps + int(said[2])} ({said[0]})"
    if run.returncode or not simulate.ENDED.search(run.stdout):
        last = (run.stdout + run.stderr).splitlines() or [""]
        return None, f"ended with status {run.returncode} ({last[-1]})"
    return False, f"not found in {seeds * steps} steps"


def main():
    words = argparse.ArgumentParser()
    words.add_argument("--seeds", type=int, default=100)
    words.add_argument("--steps", type=int, default=2000)
    words.add_argument("--only", default="")
    asked = words.parse_args()
    program = built()
    passed = failed = 0
    for number, name in enumerate(("what stands", *WRONG)):
        if number > 0 and asked.only not in name:
            continue
        is_found, told = found(program, number, asked.seeds, asked.steps)
        print(f"{name}: {told}", flush=True)
        is_right = is_found == (number > 0)
        passed, failed = passed + is_right, failed + (not is_right)
    print(f"{passed} passed, {failed} failed", flush=True)
    return 1 if failed else 0


if __name__ == "__main__":
    sys.exit(main())
