"""Worked scripts, each with its right answers, and a wrong one to its last line, which no machine of trees and bytes gives.

They are of a store with the options `--servers 3 --racks 2 --replicas 3 --chunk 16 --block 4`."""

from dataclasses import dataclass


@dataclass(frozen=True)
class Worked:
    """Lines with their right answers, a wrong answer to the last one, and why that is wrong."""

    why: str
    wrong: str
    rows: tuple[tuple[str, str], ...]


def rows(text: str) -> tuple[tuple[str, str], ...]:
    """Rows of a line, two spaces or more, and its answer."""
    cut = (row.strip().partition("  ") for row in text.strip().splitlines())
    return tuple((line, answer.strip()) for line, _, answer in cut)


WORKED = (
    Worked(
        "a block has bytes that were only owed when a record passed them",
        "refused 25 Range",
        rows(
            """
            create /f                                ok
            write /f 0 6161616161616161616161616161  ok
            hold on forward                          ok
            append /f 626262                         refused 29 Unsure
            hold off                                 ok
            append /f 63                             ok 16
            digest /f 0 3                            ok f2b78158a64c5b11cd49120f689a1811517565801188d000a1fb6b24a51b2172
            lose 0 1                                 ok
            at 100000                                ok
            write /f 0 64                            ok
            digest /f 0 3                            ok 961b6dd3ede3cb8ecbaacbd68de040cd78eb2ed5889130cceb4c49268ea4d506
            """
        ),
    ),
    Worked(
        "another file was written",
        "ok 62",
        rows(
            """
            create /a               ok
            create /b               ok
            write /a 0 61           ok
            write /b 0 62           ok
            read /a 0 9             ok 61
            """
        ),
    ),
    Worked(
        "one side of a snapshot was written with the other",
        "ok 78",
        rows(
            """
            create /f               ok
            write /f 0 61           ok
            snapshot /f /g          ok
            write /g 0 78           ok
            read /f 0 9             ok 61
            """
        ),
    ),
    Worked(
        "an append is answered where it stands in its chunk",
        "ok 1",
        rows(
            """
            create /f               ok
            write /f 16 61          ok
            append /f 62            ok 17
            """
        ),
    ),
    Worked(
        "a record that doesn't fit was put over two chunks",
        "ok 14",
        rows(
            """
            create /f               ok
            write /f 13 61          ok
            append /f 62636465      ok 16
            """
        ),
    ),
    Worked(
        "a file with bytes has the size 0",
        "ok file 0 1/1/0,1,2",
        rows(
            """
            create /f               ok
            write /f 0 616263       ok
            stat /f                 ok file 3 1/1/0,1,2
            """
        ),
    ),
    Worked(
        "a read lacks a write that was done",
        "ok 61",
        rows(
            """
            create /f               ok
            write /f 0 61           ok
            write /f 1 62           ok
            read /f 0 9             ok 6162
            """
        ),
    ),
    Worked(
        "an edit that was refused came again",
        "ok 62",
        rows(
            """
            create /f               ok
            write /f 0 61           ok
            hold on push            ok
            write /f 0 62           refused 24 NoData
            hold off                ok
            deliver 1               ok
            read /f 0 9             ok 61
            """
        ),
    ),
    Worked(
        "an edit that a rollback took back came again",
        "ok 62",
        rows(
            """
            create /f               ok
            write /f 0 61           ok
            rollingUpgrade prepare  ok 1
            hold on edit            ok
            write /f 0 62           refused 29 Unsure
            hold off                ok
            rollingUpgrade rollback  ok 2
            deliver 1               refused 20 NotPrimary
            read /f 0 9             ok 61
            """
        ),
    ),
    Worked(
        "a record that was owed was added twice",
        "ok 616262",
        rows(
            """
            create /f               ok
            append /f 61            ok 0
            hold on edit            ok
            append /f 62            refused 29 Unsure
            hold off                ok
            deliver 1               ok
            deliver 1               ok
            read /f 0 9             ok 6162
            """
        ),
    ),
    Worked(
        "a late call was done twice",
        "ok f",
        rows(
            """
            hold on call            ok
            create /f               refused 29 Unsure
            hold off                ok
            deliver 1               ok
            rm /f                   ok /.deleted.00000000000000000000.00000000000000000001.f
            deliver 1               refused 19 Old
            ls /                    ok
            """
        ),
    ),
    Worked(
        "a scan came before its time",
        "ok 1 0",
        rows(
            """
            create /f               ok
            rm /f                   ok /.deleted.00000000000000000000.00000000000000000001.f
            at 259200               ok
            scan                    ok 0 0
            """
        ),
    ),
    Worked(
        "a rollback kept what was written",
        "ok 62",
        rows(
            """
            create /f               ok
            write /f 0 61           ok
            rollingUpgrade prepare  ok 1
            write /f 0 62           ok
            rollingUpgrade rollback  ok 2
            read /f 0 9             ok 61
            """
        ),
    ),
    Worked(
        "a rollback was over once it was begun",
        "refused 13 NotUpgrading",
        rows(
            """
            rollingUpgrade prepare  ok 1
            rollback-begin          ok 2
            rollback-commit         ok 2
            """
        ),
    ),
    Worked(
        "a rollback that is begun refuses as if nothing stood there",
        "refused 3 NotFound",
        rows(
            """
            create /f               ok
            rollingUpgrade prepare  ok 1
            rollback-begin          ok 2
            ls /f                   refused 12 RollingBack
            """
        ),
    ),
)
