#!/usr/bin/env python3
"""Times the batch program on generated files, by 1, 2 and 4 workers, against a shell loop of single runs.

usage: python3 benches/many.py [COUNT]      (COUNT files of 120 activities and 4 resources, 100 if not given; builds both
                                             programs where they are not built yet)

The loop prints what the batch program prints, `== NAME` and the single run of each file, and the bytes are compared. A time
is the least wall-clock time of seven runs, where all ways take turns; beside it stands how many times as fast as the loop it is.
"""
import pathlib
import random
import subprocess
import sys
import tempfile
import time

TOP = pathlib.Path(__file__).resolve().parent.parent
SINGLE = TOP / "crates/rcpsp/out/rcpsp"
MANY = TOP / "crates/rcpsp_many/out/rcpsp_many"
RUNS = 7


def generated(activities, seed):
    """An instance in the Patterson format: 4 resources, and up to three successors for each activity."""
    draw = random.Random(seed)
    capacities = [draw.randint(10, 20) for _ in range(4)]
    lines = [f"{activities} {len(capacities)}", " ".join(map(str, capacities))]
    for a in range(1, activities + 1):
        later = range(a + 1, min(activities, a + 12) + 1)
        successors = sorted(draw.sample(later, min(draw.randint(1, 3), len(later))))
        demands = [draw.randint(0, 10) for _ in capacities]
        lines.append(" ".join(map(str, [draw.randint(1, 10), *demands, len(successors), *successors])))
    return "\n".join(lines) + "\n"


def timed(command, folder):
    """The wall-clock time of a command in milliseconds, and what it prints."""
    begun = time.perf_counter()
    ran = subprocess.run(command, cwd=folder, stdout=subprocess.PIPE, check=True)
    return 1000 * (time.perf_counter() - begun), ran.stdout


def main():
    count = int(sys.argv[1]) if len(sys.argv) > 1 else 100
    for program in (["./rcpsp", "schedule", "examples/e1.rcp"], ["./rcpsp_many", "examples/e1.rcp"]):
        subprocess.run(program, cwd=TOP, stdout=subprocess.DEVNULL, check=True)
    names = [f"j120_{number:03}.rcp" for number in range(count)]
    loop = f'for name in *.rcp; do echo "== $name"; {SINGLE} schedule "$name" --workers 1; done'
    ways = {"a loop of single runs": ["bash", "-c", loop]}
    for workers in (1, 2, 4):
        ways[f"{workers} worker{'s' if workers > 1 else ''}"] = [MANY, "--workers", str(workers), *names]
    with tempfile.TemporaryDirectory() as folder:
        for number, name in enumerate(names):
            (pathlib.Path(folder) / name).write_text(generated(120, number))
        times = {way: [] for way in ways}
        wanted = None
        for _ in range(RUNS):
            for way, command in ways.items():
                taken, printed = timed(command, folder)
                times[way].append(taken)
                wanted = wanted or printed
                if printed != wanted:
                    sys.exit(f"{way}: other bytes than those of the loop")
    slowest = min(times["a loop of single runs"])
    print(f"{count} files of 120 activities\n")
    print("| way | milliseconds | times as fast as the loop |\n|---|---|---|")
    for way, taken in times.items():
        print(f"| {way} | {min(taken):.1f} | {slowest / min(taken):.2f} |")


main()
