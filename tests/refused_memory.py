#!/usr/bin/env python3
"""Refuses each growth of memory of the built programs in turn, over some runs of each command and of the batch program.

A run then ends as it does with ample memory, or with status 7, nothing on standard output and the one line for want
of memory, after the live lines that were put before; where the words themselves find no memory, which is in the first
growths, it ends with status 7 without a word. Nothing else, no crash and no hang. What the live lines tell depends on
how the workers come on, so it is looked at that they are as many as asked for, that none tells of fewer bookings than
the one before, and that the last tells of all. `tests/refuse.c` refuses the growths; where there is no C compiler,
nothing is tried. Prints for each run how many growths it has.
"""
import os
import pathlib
import re
import shutil
import subprocess
import sys
import tempfile

TOP = pathlib.Path(__file__).resolve().parent.parent
OUT_OF_MEMORY = b"rcpsp: out of memory\n"
# The words of each run; the first is the program.
RUNS = [
    "rcpsp schedule examples/e1.rcp",
    "rcpsp schedule examples/e1.rcp --workers 1",
    "rcpsp schedule examples/e1.rcp --workers 2",
    "rcpsp schedule examples/e1.rcp --workers 64",
    "rcpsp schedule examples/e1.sm",
    "rcpsp schedule examples/e1.rcp --list examples/l1.txt",
    "rcpsp schedule examples/e1.rcp --rule lft --as chart",
    "rcpsp schedule examples/e1.rcp --as csv",
    "rcpsp schedule examples/e2.rcp --list examples/l2.txt --improve",
    "rcpsp schedule examples/e2.rcp --list examples/l2.txt --descend 9",
    "rcpsp schedule examples/e2.rcp --list examples/l2.txt --descend 1 --improve --as chart --live 2",
    "rcpsp schedule examples/e1.rcp --live 5 --workers 1",
    "rcpsp schedule examples/e1.rcp --live 5",
    "rcpsp schedule examples/e1.rcp --live 5 --as csv --improve",
    "rcpsp schedule examples/e1.rcp --calendar examples/holidays.txt",
    "rcpsp check examples/e1.rcp examples/plans/ana.csv",
    "rcpsp check examples/e1.rcp examples/plans/ben.csv",
    "rcpsp windows examples/e1.rcp",
    "rcpsp convert examples/e1.sm --to rcp",
    "rcpsp convert examples/e1.rcp --to sm",
    "rcpsp parallel examples/late.rcp",
    "rcpsp parallel examples/e1.rcp --calendar examples/holidays.txt",
    "rcpsp parallel examples/e1.rcp --list examples/l1.txt --as csv",
    "rcpsp sample examples/e1.rcp --seed 42 --from 54 --count 1",
    "rcpsp sample examples/e1.rcp --seed 42 --from 54 --count 1 --workers 1",
    "rcpsp sample examples/e1.rcp --seed 42 --from 54 --count 10",
    "rcpsp sample examples/e1.rcp --seed 42 --from 54 --count 10 --workers 1 --improve",
    "rcpsp sample examples/e1.rcp --seed 42 --from 54 --count 3 --as csv",
    "rcpsp sample examples/e1.rcp --seed 42 --from 54 --count 3 --all",
    "rcpsp trial --number 42 --activities 3 --resources 1",
    "rcpsp trial --number 1 --activities 2 --resources 0 --workers 1",
    "rcpsp schedule examples/ring.rcp",
    "rcpsp schedule examples/misfit.rcp",
    "rcpsp schedule examples/none.rcp",
    "rcpsp schedule examples/e1.rcp --list examples/e1.rcp",
    "rcpsp check examples/e1.rcp examples/e1.rcp",
    "rcpsp_many --workers 1 examples/e1.rcp examples/ring.rcp",
]


def run(words, library, refused, count):
    """The status and both outputs of a run in which one growth is refused."""
    given = {**os.environ, "LD_PRELOAD": library, "REFUSE": str(refused), "REFUSE_COUNT": count}
    name, *options = words.split()
    program = TOP / "crates" / name / "out" / name
    how = {"cwd": TOP, "env": given, "stdin": subprocess.DEVNULL, "capture_output": True, "timeout": 60}
    ran = subprocess.run([program, *options], **how)
    return ran.returncode, ran.stdout, ran.stderr


def growths(count):
    """How many growths the last run made."""
    return int(pathlib.Path(count).read_text())


def without_live_lines(ended):
    """How a run ended, with its live lines apart: how many there are, or None where they are not right."""
    status, out, note = ended
    lines = re.match(rb"(?:booked \d+ of \d+\n)*", note).group()
    told = [tuple(map(int, line)) for line in re.findall(rb"booked (\d+) of (\d+)", lines)]
    is_right = told == sorted(told) and {of for _, of in told} <= {count for count, _ in told[-1:]}
    return (status, out, note[len(lines):]), len(told) if is_right else None


def try_run(words, library, count):
    """Refuses each growth of a run; answers how many were refused, and how many of them ended wrongly."""
    ample, live = without_live_lines(run(words, library, 0, count))
    most = growths(count)
    quiet = refused = failed = 0
    for number in range(1, most + 1):
        given = run(words, library, number, count)
        ended, lines = without_live_lines(given)
        if ended == (7, b"", b"") and lines == 0 and quiet == number - 1:
            quiet += 1
        elif ended == (7, b"", OUT_OF_MEMORY) and lines in (0, live):
            refused += 1
        elif ended != ample or lines != live:
            failed += 1
            print(f"{words}: with growth {number} refused: {given}")
    print(f"{words}: {most} growths, {quiet} of the words, {refused} others end with status 7")
    return most, failed


def main():
    compiler = shutil.which("cc")
    if not compiler:
        print("memory: no C compiler, so no growth was refused")
        return 0
    # The program is built where it is not yet.
    subprocess.run(["./rcpsp", "schedule", "examples/e1.rcp"], cwd=TOP, stdout=subprocess.DEVNULL, check=True)
    with tempfile.TemporaryDirectory() as folder:
        library, count = f"{folder}/refuse.so", f"{folder}/count"
        source = TOP / "tests" / "refuse.c"
        subprocess.run([compiler, "-O1", "-shared", "-fPIC", "-o", library, source, "-ldl"], check=True)
        tried, failed = map(sum, zip(*(try_run(words, library, count) for words in RUNS)))
    print(f"memory: {tried - failed} passed, {failed} failed")
    return 1 if failed else 0


if __name__ == "__main__":
    sys.exit(main())
