"""Counts the allocations of the program `scheme_bench`, which no clause speaks of.

The calls that take no memory are made in one round and in many, on what was made before the first, and the best of one
sample and of many is sought by one worker. Both runs have to take memory equally often. `tests/refuse.c`, which is
loaded before the library of C, counts.
"""
import pathlib
import shutil
import subprocess
import sys
import tempfile

TOP = pathlib.Path(__file__).resolve().parent.parent
BENCH = TOP / "crates" / "scheme_bench"
PROGRAM = BENCH / "out" / "scheme_bench"
MANY = "50"

def taken(counter, folder, scheme, rounds, *more):
    """How often a run takes memory."""
    told = folder / "taken"
    subprocess.run([PROGRAM, scheme, rounds, BENCH / "data" / "e1.rcp", *more], check=True, timeout=60,
                   stdout=subprocess.DEVNULL, env={"LD_PRELOAD": str(counter), "REFUSE": "0", "REFUSE_COUNT": str(told)})
    return int(told.read_text())


def main():
    if not PROGRAM.exists():
        subprocess.run(["rt", "run", "--", "line", "1", "data/e1.rcp"], cwd=BENCH, stdout=subprocess.DEVNULL, check=True)
    with tempfile.TemporaryDirectory() as name:
        folder = pathlib.Path(name)
        counter = folder / "refuse.so"
        compiler = shutil.which("cc") or "clang"
        subprocess.run([compiler, "-O1", "-shared", "-fPIC", "-o", counter, TOP / "tests" / "refuse.c", "-ldl"], check=True)
        failed = 0
        for scheme, *more in (["line"], ["every"], ["best", "1"]):
            one, many = (taken(counter, folder, scheme, rounds, *more) for rounds in ["1", MANY])
            if one != many or one == 0:
                failed += 1
                print(f"{scheme}: memory is taken {one} times in one round, {many} times in {MANY}")
        # The counter sees what a round takes: a line of its own.
        one, many = (taken(counter, folder, "fresh", rounds) for rounds in ["1", MANY])
        if not one < many:
            failed += 1
            print("the counter sees nothing")
    print(f"memory: {4 - failed} passed, {failed} failed")
    sys.exit(1 if failed else 0)


main()
