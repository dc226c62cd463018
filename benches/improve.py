"""Improves generated schedules, and tells how much: counts the rounds and the instructions of one improvement by the
proved program, and what it takes off the makespan. Each improved schedule is compared with that of an implementation of
its own here, which is short and slow, and tested: no capacity is exceeded, each activity follows its predecessors.

usage: python3 benches/improve.py [COUNT]      (COUNT instances of each size, 10 if not given; builds the benchmark
                                                program; needs valgrind)
"""
import pathlib
import random
import sys
import tempfile

from measure import bench, instructions, printed


def generated(activities, seed):
    """Durations, demands of 4 resources, successors and capacities: each activity has up to three successors."""
    draw = random.Random(seed)
    capacities = [draw.randint(10, 20) for _ in range(4)]
    durations, demands, successors = [], [], []
    for a in range(activities):
        later = range(a + 1, min(activities, a + 13))
        durations.append(draw.randint(1, 10))
        demands.append([draw.randint(0, 10) for _ in capacities])
        successors.append(sorted(draw.sample(later, min(draw.randint(1, 3), len(later)))))
    return durations, demands, successors, capacities


def text_of(durations, demands, successors, capacities):
    """The instance in the Patterson format, which counts from 1."""
    lines = [f"{len(durations)} {len(capacities)}", " ".join(map(str, capacities))]
    for duration, demand, after in zip(durations, demands, successors):
        lines.append(" ".join(map(str, [duration, *demand, len(after), *(b + 1 for b in after)])))
    return "\n".join(lines) + "\n"


class Scheduler:
    """The definitions, on a table of what is used in each period."""

    def __init__(self, durations, demands, successors, capacities):
        self.durations, self.demands, self.successors, self.capacities = durations, demands, successors, capacities
        self.count = len(durations)
        self.predecessors = [[a for a in range(self.count) if b in successors[a]] for b in range(self.count)]

    def fits(self, used, a, start):
        return all(used.get((k, p), 0) + self.demands[a][k] <= capacity
                   for p in range(start, start + self.durations[a]) for k, capacity in enumerate(self.capacities))

    def book(self, used, a, start):
        for p in range(start, start + self.durations[a]):
            for k, demand in enumerate(self.demands[a]):
                used[k, p] = used.get((k, p), 0) + demand

    def length(self, starts):
        return max(start + duration for start, duration in zip(starts, self.durations))

    def by_keys(self, keys):
        order = []
        while len(order) < self.count:
            ready = [a for a in range(self.count) if a not in order and all(b in order for b in self.predecessors[a])]
            order.append(min(ready, key=lambda a: (keys[a], a)))
        return order

    def serial(self, order):
        used, starts = {}, [None] * self.count
        for a in order:
            start = max((starts[b] + self.durations[b] for b in self.predecessors[a]), default=0)
            while not self.fits(used, a, start):
                start += 1
            self.book(used, a, start)
            starts[a] = start
        return starts

    def backward(self, starts):
        used, moved, end = {}, {}, self.length(starts)
        while len(moved) < self.count:
            ready = [a for a in range(self.count) if a not in moved and all(b in moved for b in self.successors[a])]
            a = max(ready, key=lambda a: (starts[a] + self.durations[a], a))
            start = min([end] + [moved[b] for b in self.successors[a]]) - self.durations[a]
            while not self.fits(used, a, start):
                start -= 1
            self.book(used, a, start)
            moved[a] = start
        return [moved[a] for a in range(self.count)]

    def improved(self, starts):
        """The improved schedule, and how many rounds it took: the last one does not shorten."""
        rounds = 1
        while self.length(better := self.serial(self.by_keys(self.backward(starts)))) < self.length(starts):
            starts, rounds = better, rounds + 1
        return starts, rounds

    def check(self, starts):
        used = {}
        for a, start in enumerate(starts):
            assert self.fits(used, a, start), "no capacity is exceeded"
            self.book(used, a, start)
            assert all(start + self.durations[a] <= starts[b] for b in self.successors[a]), "it follows"


def ran(path):
    """The starts of the first and of the improved schedule, as the program prints them."""
    return [[int(word) for word in line.split()] for line in printed([program, 0, path]).splitlines()]


count = int(sys.argv[1]) if len(sys.argv) > 1 else 10
program = bench("improve_bench", "0", "data/late.rcp")
print("activities instances | rounds | per cent off the makespan | shorter | thousand instructions, of one round")
with tempfile.TemporaryDirectory() as folder:
    path = pathlib.Path(folder) / "i.rcp"
    for activities in (10, 30, 60, 120):
        rounds, gains, shorter, counted = [], [], 0, []
        for seed in range(count):
            lists = generated(activities, 1000 * activities + seed)
            path.write_text(text_of(*lists))
            scheduler = Scheduler(*lists)
            first, better = ran(path)
            assert first == scheduler.serial(scheduler.by_keys(range(activities))), "the first schedule"
            expected, took = scheduler.improved(first)
            assert better == expected, "the improved schedule"
            scheduler.check(better)
            assert scheduler.improved(better)[0] == better, "improved again it stays"
            before, after = scheduler.length(first), scheduler.length(better)
            rounds.append(took)
            gains.append(100 * (before - after) / before)
            shorter += after < before
            if seed < 5:
                ten, none = (instructions([program, times, path]) for times in (10, 0))
                counted.append((ten - none) / 10 / 1000 / took)
        per_round = sum(counted) / len(counted)
        mean = sum(rounds) / count
        print(f"{activities:10} {count:9} | {mean:4.1f}, at most {max(rounds)} | {sum(gains) / count:5.1f} | "
              f"{shorter:3} | {per_round * mean:8.1f} {per_round:7.1f}", flush=True)
