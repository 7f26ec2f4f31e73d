"""What is wrong with lines that are none and with sizes that make no store, in words, and what can be asked for, in short.

The lines and the options are those of two tables in docs/LINES.md, and are written nowhere else."""

import contextlib
import difflib
import functools
import re
import signal
import subprocess
import sys
import textwrap
import threading
from collections import deque
from collections.abc import Callable
from pathlib import Path
from typing import BinaryIO

from plain_lines import KINDS, OF_NODES
from plain_tree import GREATEST

LINES = Path(__file__).resolve().parent.parent / "docs" / "LINES.md"
MOST_BYTES = 1_048_576
# A line that fits, with its end.
PIECE = MOST_BYTES + 2
# Of a line so much is shown.
SHOWN = 60
BAD_LINE = b"refused 34 BadLine"
MOST_BLOCKS = 1024


def table(title: str) -> list[list[str]]:
    """The rows of the first table behind a title, without marks."""
    text = LINES.read_text().split(f"\n{title}\n", 1)[1]
    rows = re.search(r"(?:^\|.*\n)+", text, re.MULTILINE)[0].splitlines()[2:]
    return [[re.sub(r"\[([^]]*)\]\([^)]*\)", r"\1", cell).strip() for cell in row.strip("|").split(" | ")] for row in rows]


@functools.cache
def forms() -> dict[str, list[str]]:
    """The forms of lines by their first words."""
    found: dict[str, list[str]] = {}
    for cells in table("## All lines"):
        for form in re.findall("`([^`]+)`", cells[0]):
            found.setdefault(form.split()[0], []).append(form)
    return found


def usage(name: str) -> str:
    """The options of a program and the lines that it takes, in short."""
    told = [(plain(option), f"{plain(what)}; {plain(range_)}; otherwise {plain(default)}") for option, what, range_, default in table("## Options")]
    options = [textwrap.fill(f"{option:<18} {what}", 100, initial_indent="  ", subsequent_indent=21 * " ") for option, what in told]
    lines = [f"  {form}" for form in sum(forms().values(), [])]
    told = {"--build": "proves the program and builds it; alone", "--version": "says which program runs; alone"}
    # The others don't take it.
    told |= {"--explain": "tells what is wrong with lines and sizes"} if name == "chunkstore" else {}
    options += [f"  {word:<18} {what}" for word, what in told.items()]
    heads = [f"Usage: {name} [OPTIONS] < SCRIPT", "", "Options:", *options, "", "Lines, each of which is answered by one line:"]
    tail = ["", "P and Q are paths, S is a server from 0, H the handle of a chunk as stat tells it, M a moment.", "docs/LINES.md says what each is answered."]
    return "\n".join([*heads, *lines, *tail])


def plain(cell: str) -> str:
    return cell.replace("`", "").replace(": below", "")


# ---- lines


def wrong_number(word: str) -> str | None:
    if not re.fullmatch("[0-9]+", word):
        return f"`{shown(word)}` is no number, which is decimal digits"
    # Python doesn't read numbers of any length.
    digits = word.lstrip("0")
    return None if len(digits) <= len(str(GREATEST)) and int(digits or "0") <= GREATEST else f"{shown(word)} is past the greatest number, {GREATEST}"


def wrong_bytes(word: str) -> str | None:
    stray = re.search("[^0-9a-fA-F]", word)
    if stray:
        return f"`{stray[0]}` is no hexadecimal digit"
    return "bytes are two hexadecimal digits each, and one digit is left" if len(word) % 2 else None


def wrong_kind(word: str) -> str | None:
    return None if word in KINDS else f"`{shown(word)}` is no kind of messages; there are {', '.join(KINDS)}"


# What may stand where a form has such a word. A path is judged later, and refused by another number.
JUDGES: dict[str, Callable[[str], str | None]] = {
    **dict.fromkeys(("OFFSET", "LENGTH", "CHUNK", "BLOCK", "M", "N", "S", "H"), wrong_number),
    "HEX": wrong_bytes,
    "KIND": wrong_kind,
}


def wrong_by(form: str, words: list[str]) -> str | None:
    """What is wrong with the words of a line if it is to be of this form."""
    for wanted, word in zip(form.split(), words, strict=True):
        if wanted in ("P", "Q"):
            continue
        wrong = JUDGES[wanted](word) if wanted in JUDGES else None if wanted == word else f"`{shown(word)}` isn't `{wanted}`"
        if wrong:
            return wrong
    return None


def wrong_spaces(line: str) -> str | None:
    if line.startswith(" ") or line.endswith(" "):
        return f"it {'begins' if line.startswith(' ') else 'ends'} with a space"
    return f"two spaces in a row, the first of them its byte {len(line[: line.index('  ')].encode()) + 1}" if "  " in line else None


def wrong_first(first: str) -> str | None:
    if first in forms():
        return None
    near = difflib.get_close_matches(first.lower(), forms(), 1)
    tab = ", and a tab doesn't separate words" if "\t" in first else ""
    return f"no line begins with `{shown(first)}`{tab}" + (f"; `{near[0]}` is near" if near else "")


def wrong_words(line: str) -> str | None:
    first, *rest = words = line.split(" ")
    wrong = wrong_first(first)
    if wrong:
        return wrong
    known = " or ".join(f"`{form}`" for form in forms()[first])
    counts = [len(form.split()) for form in forms()[first]]
    if len(words) not in counts:
        return f"a word too {'few' if len(words) < max(counts) else 'many'}; there is {known}"
    wrongs = [wrong_by(form, words) for form, count in zip(forms()[first], counts) if count == len(words)]
    if None in wrongs:
        return None
    return wrongs[0] if len(wrongs) == 1 else f"`{shown(line)}` is none of {known}"


def wrong_line(line: bytes, in_threads: bool = False) -> str | None:
    """What is wrong with a line, without its end; nothing where it is one."""
    if len(line) > MOST_BYTES:
        return f"it has more than {MOST_BYTES} bytes"
    try:
        text = line.decode()
    except UnicodeDecodeError as wrong:
        return f"its byte {wrong.start + 1} isn't UTF-8"
    if not text:
        return "it is empty"
    if in_threads and text.split(" ")[0] in OF_NODES:
        return f"`{text.split(' ')[0]}` is about nodes and messages, and no line of a store in threads"
    return wrong_spaces(text) or wrong_words(text)


def shown(text: str) -> str:
    """A text as far as it is safe to show, and no longer than a row."""
    safe = "".join(it if it.isprintable() else it.encode("unicode_escape").decode() for it in text)
    return safe if len(safe) <= SHOWN else f"{safe[:SHOWN]}…"


def told_of(number: int, line: bytes, in_threads: bool) -> str:
    wrong = wrong_line(line, in_threads) or "the program takes it for none"
    return f"line {number}: {wrong}: {shown(line[: 4 * SHOWN].decode(errors='replace'))}"


# ---- sizes


def sizes_of(words: list[str]) -> dict[str, int]:
    """The sizes that the words of a command line ask for, as far as they are numbers."""
    sizes = {plain(option).split()[0][2:]: int(default) for option, _, _, default in table("## Options") if default.isdigit()}
    for name, value in re.findall(r"--([a-z]+)[= ]\+?([0-9]+)(?= |$)", " ".join(words)):
        if name in sizes:
            sizes[name] = int(value)
    return sizes


def wrong_sizes(sizes: dict[str, int]) -> list[str]:
    """Which sizes make no store, by name and bound."""
    whole = sizes["chunk"] // sizes["block"] if sizes["block"] else 0
    judged = [
        (1 <= sizes["servers"] <= 16, f"--servers {sizes['servers']}: there are 1 to 16"),
        (1 <= sizes["racks"] <= 16, f"--racks {sizes['racks']}: there are 1 to 16"),
        (1 <= sizes["replicas"] <= sizes["servers"], f"--replicas {sizes['replicas']}: there are 1 to as many as servers, which are {sizes['servers']}"),
        (1 <= sizes["block"] <= 65536, f"--block {sizes['block']}: a block has 1 to 65536 bytes"),
        (not sizes["block"] or sizes["chunk"] == whole * sizes["block"], f"--chunk {sizes['chunk']}: that is no whole number of blocks of {sizes['block']} bytes"),
        (not sizes["block"] or whole <= MOST_BLOCKS, f"--chunk {sizes['chunk']}: that is {whole} blocks of {sizes['block']} bytes, and a chunk has {MOST_BLOCKS} at most"),
        (sizes["chunk"] > 0, f"--chunk {sizes['chunk']}: a chunk has 1 block at least"),
    ]
    return [wrong for is_well, wrong in judged if not is_well]


def tell_sizes(name: str, words: list[str]) -> None:
    for wrong in wrong_sizes(sizes_of(words)):
        print(f"{name}: {wrong}", file=sys.stderr, flush=True)


# ---- a run


class Run:
    """A program that runs between this process's input and output. Its lines are remembered until they are answered."""

    def __init__(self, program: Path, name: str, words: list[str]) -> None:
        self.name, self.in_threads = name, "--threads" in words
        self.lines, self.number = deque[bytes](), 0
        # It gets the signals of a terminal itself.
        self.program = subprocess.Popen([name, *words], executable=program, stdin=subprocess.PIPE, stdout=subprocess.PIPE)
        for number in (signal.SIGTERM, signal.SIGHUP):
            signal.signal(number, lambda number, _: self.program.send_signal(number))
        signal.signal(signal.SIGINT, signal.SIG_IGN)

    def send_lines(self, given: BinaryIO) -> None:
        """Hands the lines on as they come, very long ones in pieces. Where the program doesn't read any more its answers end too."""
        is_begun = False
        with contextlib.suppress(BrokenPipeError), self.program.stdin as to:
            while piece := given.readline(PIECE):
                if not is_begun:
                    self.lines.append(piece)
                is_begun = not piece.endswith(b"\n")
                to.write(piece)
                to.flush()

    def tell_answers(self) -> None:
        for answer in self.program.stdout:
            self.number += 1
            line = self.lines.popleft() if self.lines else b""
            sys.stdout.buffer.write(answer)
            sys.stdout.flush()
            if answer.rstrip(b"\n") == BAD_LINE:
                ended = line[:-1].removesuffix(b"\r") if line.endswith(b"\n") else line
                print(f"{self.name}: {told_of(self.number, ended, self.in_threads)}", file=sys.stderr, flush=True)


def run_explaining(program: Path, name: str, words: list[str]) -> int:
    """Runs a program, and tells on standard error of each line that is none what is wrong with it."""
    tell_sizes(name, words)
    run = Run(program, name, words)
    threading.Thread(target=run.send_lines, args=[open(0, "rb", closefd=False)], daemon=True).start()
    try:
        run.tell_answers()
    except BrokenPipeError:
        run.program.stdout.close()
    status = run.program.wait()
    return 128 - status if status < 0 else status
