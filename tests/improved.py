#!/usr/bin/env python3
"""Improves 200 generated instances of 10 to 120 activities with the built program.

Each improved schedule is one that `check` accepts, is no longer than the serial one, and stays when it is improved once
more: the list by its starts is scheduled to the same plan, with `--improve` and without.
"""
import pathlib
import subprocess
import sys
import tempfile

TOP = pathlib.Path(__file__).resolve().parent.parent
PROGRAM = TOP / "crates/rcpsp/out/rcpsp"
sys.path.append(str(TOP / "benches"))

from instances import instance


def printed(*words):
    return subprocess.run([PROGRAM, *map(str, words)], capture_output=True, text=True, check=True, timeout=60).stdout


def makespan(text):
    return int(text.split()[-1])


failed = shorter = 0
with tempfile.TemporaryDirectory() as folder:
    file, plan, order = (pathlib.Path(folder) / name for name in ("i.rcp", "plan.csv", "list.txt"))
    for seed in range(200):
        file.write_text(instance(10 + 110 * seed // 199, 4, 10, seed=seed))
        before = makespan(printed("schedule", file))
        improved = printed("schedule", file, "--improve", "--as", "csv")
        plan.write_text(improved)
        after = makespan(printed("check", file, plan))
        starts = [int(line.split(",")[1]) for line in improved.splitlines()[1:]]
        numbers = sorted(range(1, len(starts) + 1), key=lambda number: (starts[number - 1], number))
        order.write_text(" ".join(map(str, numbers)))
        again = [printed("schedule", file, "--list", order, "--as", "csv", *more) for more in ((), ("--improve",))]
        if after > before or again != [improved, improved]:
            failed += 1
            print(f"instance {seed}: {before} before, {after} after, once more the same: {again[1] == improved}")
        shorter += after < before
print(f"improved: 200 instances, {shorter} shorter than the serial schedule, {failed} failed")
sys.exit(1 if failed else 0)
