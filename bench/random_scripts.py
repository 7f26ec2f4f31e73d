"""Random scripts of all kinds of lines, and answers that are turned in one place."""

import random
import re
from collections.abc import Callable
from dataclasses import dataclass, field, replace

from plain_lines import KINDS, OF_NODES, STEPS, Sizes, question_of
from plain_machine import ORDINARY, PREPARING, Call, State, called
from plain_tree import NUMBERS, Path, Refused, text_of

PLACES = ("/a", "/b", "/d", "/d/a", "/d/e", "/d/e/c", "/g")
# How often a kind of line comes, in a script in which little goes wrong, and in one in which much does.
CALM = {
    "make": 5,
    "move": 4,
    "remove": 3,
    "bring_back": 3,
    "copy": 4,
    "list_names": 4,
    "stat": 6,
    "write": 16,
    "append": 18,
    "read": 14,
    "digest": 5,
    "pass_time": 3,
    "scan": 2,
    "upgrade": 5,
    "half": 3,
    "beat": 2,
    "replicate": 2,
    "restart": 2,
    "stray": 1,
}
TROUBLED = CALM | {"hold": 24, "deliver": 6, "lose": 3, "damage": 3, "mend": 2, "beat": 4, "replicate": 4, "restart": 3, "upgrade": 6}
# Nothing goes wrong but that calls are late.
LATE = CALM | {"late_call": 8, "waiting_copy": 3, "late_delivery": 4, "restart": 4}
HALVES = {"rollingUpgrade prepare": ("prepare-begin", "prepare-commit"), "rollingUpgrade rollback": ("rollback-begin", "rollback-commit")}
# Messages that are held back: four times in five of these kinds, since most lines have some. They are held for so many lines at most.
OFTEN_HELD = 3 * ("call", "reply", "push", "edit", "forward", "ack", "done") + ("advance", "promised", "grant", "epoch", "learned")
MOST_HELD_LINES = 3
# Of the lines that look at one file, and that no later line hangs on, so many are a `tick` instead.
TICKED = 0.2
# Lines that are none, or whose path is none.
STRAYS = (
    *("", "ls", "ls  /", "ls /a/", "LS /", "at +7", "append /a 6", "rm -R /a", "scan 1", "hold on nothing", "restart Master"),
    *("mkdir /.deleted.x", "mkdir /x:y", "rm -r", "ls /.deleted.x"),
)


@dataclass
class Writer:
    """Writes a script line by line, and follows what it would come to if nothing went wrong."""

    chance: random.Random
    sizes: Sizes
    weights: dict[str, int]
    state: State = field(default_factory=State)
    lines: list[str] = field(default_factory=list)
    held: int = 0

    def script(self, length: int) -> list[str]:
        """It begins with files, and at its end each file that would stand is read."""
        for path in self.chance.sample(PLACES, 3):
            self.add(f"create {path}")
            self.lines.append(f"write {path} 0 {self.content(2 * self.sizes.chunk)}")
        while len(self.lines) < length - len(PLACES):
            word = self.chance.choices(list(self.weights), list(self.weights.values()))[0]
            getattr(self, word)()
        self.lines += [f"read {text_of(path)} 0 {4 * self.sizes.chunk}" for path in self.paths(self.state.tree.is_file)]
        return self.lines[:length] + ["ls /"] * (length - len(self.lines))

    def add(self, line: str) -> None:
        self.lines.append(line)
        self.follow(line)

    def follow(self, line: str) -> None:
        """What the calls of a line come to. A write adds no chunks here, so bytes aren't followed."""
        if line == "restart master" and self.state.phase == PREPARING:
            self.state = replace(self.state, phase=ORDINARY)
        try:
            question = question_of(line)
            for name in HALVES.get(question.word, (question.word.removeprefix("rollingUpgrade "),)):
                self.state = called(self.state, Call(name, question.arguments), self.sizes.chunk)[0][1]
        except Refused:
            return

    def paths(self, is_one: Callable[[Path], bool]) -> list[Path]:
        """What would stand, but for the root."""
        return [path for path in self.state.tree.entries if path and is_one(path)]

    def place(self) -> str:
        return self.chance.choice(PLACES)

    def standing(self) -> str:
        """The path of something that would stand there, mostly; of a hidden one seldom."""
        found = self.paths(lambda path: not path[-1].startswith("."))
        return text_of(self.chance.choice(found)) if found and self.chance.random() < 0.9 else self.place()

    def file(self, with_hidden: bool = False) -> str:
        found = self.paths(lambda path: self.state.tree.is_file(path) and (with_hidden or ".deleted" not in text_of(path)))
        if not found:
            self.add(f"create {self.place()}")
        return text_of(self.chance.choice(found)) if found and self.chance.random() < 0.95 else self.place()

    def content(self, most: int) -> str:
        return self.chance.randbytes(self.chance.randint(1, most)).hex()

    # ---- lines of the tree

    def make(self) -> None:
        self.add(f"{self.chance.choice(('create', 'create', 'mkdir'))} {self.place()}")

    def move(self) -> None:
        self.add(f"mv {self.standing()} {self.place()}")

    def remove(self) -> None:
        self.add(f"rm {self.chance.choice(('', '-r '))}{self.standing()}")

    def bring_back(self) -> None:
        hidden = self.paths(lambda path: path[-1].startswith("."))
        self.add(f"undelete {text_of(self.chance.choice(hidden)) if hidden else self.standing()}")

    def copy(self) -> None:
        self.add(f"snapshot {self.standing()} {self.place()}")

    def list_names(self) -> None:
        self.add(f"ls {self.chance.choice(('/', self.standing()))}")

    # ---- lines of files

    def stat(self) -> None:
        self.add(f"stat {self.file(True)}")

    def write(self) -> None:
        self.add(f"write {self.file()} {self.chance.randint(0, 2 * self.sizes.chunk)} {self.content(self.sizes.chunk + 4)}")

    def append(self) -> None:
        many = self.sizes.chunk // 4 + (self.chance.random() < 0.1)
        self.add(f"append {self.file()} {self.content(many)}")

    def read(self) -> None:
        many = self.chance.choice((4, 4 * self.sizes.chunk))
        self.add(f"read {self.file(True)} {self.chance.choice((0, 0, self.chance.randint(0, 2 * self.sizes.chunk)))} {many}")

    def digest(self) -> None:
        self.add(f"digest {self.file(True)} {self.chance.randint(0, 1)} {self.chance.randint(0, self.sizes.chunk // self.sizes.block - 1)}")

    # ---- what is looked after

    def pass_time(self) -> None:
        moment = self.state.moment + self.chance.choice((1, 30, 61, 259_200, 259_201))
        self.lines.append(f"at {moment}")
        self.state = replace(self.state, moment=moment)

    def scan(self) -> None:
        self.add("scan")

    def upgrade(self) -> None:
        ordinary = ("prepare", "prepare", "prepare", "finalize", "query")
        self.add(f"rollingUpgrade {self.chance.choice(('rollback', 'rollback', 'finalize', 'query') if self.state.epoch % 2 else ordinary)}")

    def half(self) -> None:
        """Half of an upgrade. It goes on soon, since it keeps out most lines."""
        begin, commit = self.chance.choice((("prepare-begin", "prepare-commit"), ("rollback-begin", "rollback-commit")))
        self.add(begin)
        for _ in range(self.chance.randint(0, 2)):
            self.chance.choice((self.write, self.read, self.list_names, self.make, self.scan, self.stat))()
        self.add(self.chance.choice((commit, commit, commit, "restart master")))
        self.add("rollingUpgrade query")

    # ---- nodes and messages

    def server(self) -> int:
        return self.chance.choice((*range(self.sizes.servers), *range(self.sizes.servers), self.sizes.servers))

    def beat(self) -> None:
        self.lines.append(f"beat {self.server()}")

    def replicate(self) -> None:
        self.lines.append("replicate")

    def restart(self) -> None:
        self.lines.append(f"restart {self.chance.choice(('master', self.server()))}")

    def lose(self) -> None:
        self.lines.append(f"lose {self.server()} {self.chance.randint(1, 6)}")

    def damage(self) -> None:
        self.lines.append(f"damage {self.server()} {self.chance.randint(1, 6)} {self.chance.randint(0, 1)}")

    def hold(self) -> None:
        """A few lines while messages of a kind are held back, of which some are delivered behind them."""
        asked = [*4 * (self.write, self.append), *2 * (self.copy, self.pass_time), self.make, self.move, self.remove]
        asked += [self.read, self.scan, self.upgrade]
        self.lines.append(f"hold on {self.chance.choice(OFTEN_HELD if self.chance.random() < 0.8 else KINDS)}")
        for _ in range(self.chance.randint(1, MOST_HELD_LINES)):
            self.chance.choice(asked)()
            self.held += 1
        self.lines.append("hold off")
        for _ in range(self.chance.randint(0, 2)):
            self.deliver()

    def deliver(self) -> None:
        """How many messages are held isn't known here: some for each line."""
        self.lines.append(f"deliver {self.chance.randint(0, self.held // 2 + 1)}")

    def late_call(self) -> None:
        """A change whose call is held back, and mostly delivered soon. Behind a look it is old, unless the master is restarted."""
        self.lines.append("hold on call")
        self.chance.choice((self.make, self.move, self.remove, self.copy, self.bring_back, self.scan, self.upgrade, self.append))()
        self.lines.append("hold off")
        self.held += 1
        if self.chance.random() < 0.7:
            between = self.chance.choice(([], ["ls /", "restart master"]))
            self.lines += [*between, f"deliver {self.held}", "ls /"]

    def late_delivery(self) -> None:
        self.lines += [f"deliver {self.chance.randint(1, self.held + 1)}", "ls /"]

    def waiting_copy(self) -> None:
        """The call of a copy is held back, comes, and waits at the master until its members are reached."""
        path = self.file()
        self.lines += [f"append {path} {self.content(1)}", "hold on call"]
        self.add(f"snapshot {path} {self.place()}")
        self.held += 1
        self.lines += ["hold on advance", f"deliver {self.held}", "hold off", f"ls {path}", "ls /"]
        self.held += self.sizes.replicas
        if self.chance.random() < 0.7:
            self.lines += [f"deliver {self.held - each}" for each in range(self.sizes.replicas)]

    def mend(self) -> None:
        """All that was held is let go of, by reports and a restart, and a rollback goes on."""
        self.lines += [f"beat {server}" for server in range(self.sizes.servers)]
        self.add(self.chance.choice(("restart master", "rollback-commit")))
        self.add("rollback-commit")

    def stray(self) -> None:
        self.lines.append(self.chance.choice(STRAYS))


def with_ticks(lines: list[str], chance: random.Random) -> list[str]:
    """The same lines, where all nodes tick in the place of some looks. No other line of a seed changes for it."""
    return ["tick" if line.startswith(("stat ", "digest ")) and chance.random() < TICKED else line for line in lines]


def random_script(seed: int, length: int, in_threads: bool) -> tuple[Sizes, list[str]]:
    """The sizes and the lines of a seed. In one script of four nothing goes wrong, and in one calls are late alone."""
    chance = random.Random(seed)
    servers, block = chance.randint(1, 5), chance.choice((2, 4))
    sizes = Sizes(servers, chance.randint(1, 3), chance.randint(1, min(servers, 3)), block * 4, block, in_threads)
    lines = Writer(chance, sizes, chance.choice((CALM, TROUBLED, TROUBLED, LATE))).script(length)
    return sizes, with_ticks(lines, random.Random(f"{seed} ticks"))


# ---- answers that are turned

# Lines of whose answers the machine says something. Where it says nothing, turning one is no mistake.
TOLD = ("read", "digest", "append", "stat", "ls", "rm", "undelete", "scan", "rollingUpgrade", *STEPS)
# Refusals of a line by the tree and the phase. One of them takes another's place.
OF_TREE = (
    *("NotFound", "Exists", "NotADirectory", "IsADirectory", "NotEmpty", "IntoItself", "IsRoot"),
    *("NotUpgrading", "AlreadyUpgrading", "Range", "TooLong", "NotHidden"),
)


def turned_sign(text: str, at: int, chance: random.Random) -> str:
    """Another sign of its kind in the place of one."""
    signs = "0123456789" if text[at].isdigit() else "abcdef"
    return text[:at] + chance.choice([sign for sign in signs if sign != text[at]]) + text[at + 1 :]


def turned(line: str, answer: str, chance: random.Random) -> str | None:
    """The answer to a line with one sign or one number turned, if the machine says something of it."""
    first = line.split(" ")[0]
    if answer.startswith("refused") and first not in OF_NODES:
        name = answer.split(" ")[2]
        other = chance.choice([each for each in OF_TREE if each != name])
        return f"refused {NUMBERS[other]} {other}" if name in OF_TREE else None
    if first not in TOLD or not answer.startswith("ok ") or answer in ("ok dir", "ok false"):
        return None
    # Of a scan only the first number is told, and of a file's status only the size.
    told = re.match(r"ok file \d+|ok \d+" if first in ("stat", "scan") else r"ok .*", answer)[0]
    places = [at for at in range(3, len(told)) if told[at].isdigit() or told[at] in "abcdef"]
    if first in ("stat", "scan", "append"):
        places = [at for at in places if told[at].isdigit()]
    return turned_sign(told, chance.choice(places), chance) + answer[len(told) :] if places else None
