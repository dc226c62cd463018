"""What the scripts of this folder share: built programs, how a run is counted and timed, the machine, and tables."""
import os
import pathlib
import platform
import re
import subprocess
import time

TOP = pathlib.Path(__file__).resolve().parent.parent


def bench(name, *words):
    """The program of a crate, which is proved and built where it is not yet. These words make it run in its folder."""
    folder = TOP / "crates" / name
    subprocess.run(["rt", "run", "--", *words], cwd=folder, stdout=subprocess.DEVNULL, check=True)
    return folder / "out" / name


def rcpsp():
    """The program `rcpsp`, which is proved and built where it is not yet."""
    subprocess.run([TOP / "rcpsp", "schedule", TOP / "examples/e1.rcp"], stdout=subprocess.DEVNULL, check=True)
    return TOP / "crates/rcpsp/out/rcpsp"


def printed(command):
    """What a run writes to standard output."""
    return subprocess.run(list(map(str, command)), capture_output=True, text=True, check=True).stdout


def callgrind(command, *options):
    """What callgrind tells of a run. It runs one thread at a time, and counts those of all."""
    words = ["valgrind", "--tool=callgrind", "--callgrind-out-file=/dev/null", *options, *command]
    return subprocess.run(list(map(str, words)), capture_output=True, text=True, check=True).stderr


def instructions(command):
    """The instructions of a run."""
    return int(re.search(r"Collected : (\d+)", callgrind(command)).group(1))


def branches(command):
    """The instructions of a run, and its mispredicted branches."""
    told = callgrind(command, "--branch-sim=yes")
    counts = re.search(r"Collected : (\d+)", told), re.search(r"Mispredicts:\s+([\d,]+)", told)
    return [int(count.group(1).replace(",", "")) for count in counts]


def seconds(command, status=0):
    """The time of a run by the clock, and its processor time."""
    begun = time.perf_counter()
    child = subprocess.Popen(list(map(str, command)), stdout=subprocess.DEVNULL, stderr=subprocess.DEVNULL)
    _, ended, used = os.wait4(child.pid, 0)
    taken = time.perf_counter() - begun
    child.returncode = os.waitstatus_to_exitcode(ended)
    assert child.returncode == status, (command, child.returncode)
    return taken, used.ru_utime + used.ru_stime


def least(runs, command, status=0):
    """The least time of so many runs by the clock, and the least processor time."""
    return [min(column) for column in zip(*(seconds(command, status) for _ in range(runs)))]


def least_in_turns(runs, commands):
    """The least time by the clock of each command: they take turns, so that all meet the same machine."""
    rounds = [[seconds(command)[0] for command in commands] for _ in range(runs)]
    return [min(column) for column in zip(*rounds)]


def machine():
    """The processor, how many there are, and how much else they do."""
    models = [line.split(":")[1].strip() for line in open("/proc/cpuinfo") if line.startswith("model name")]
    model = (models or [platform.processor()])[0]
    return f"{model}, {os.cpu_count()} processors, load {os.getloadavg()[0]:.1f}"


def compiled(source, folder):
    """A C++ program of this folder, as a good compiler makes it for the processor that ours are built for."""
    program = pathlib.Path(folder) / source.removesuffix(".cpp")
    subprocess.run(["g++", "-O2", "-march=x86-64-v2", "-o", program, TOP / "benches" / source], check=True)
    return program


def compiler():
    return printed(["g++", "--version"]).splitlines()[0]


def row(*cells):
    """Prints a line of a Markdown table."""
    print("| " + " | ".join(cells) + " |", flush=True)


def head(*titles):
    """Prints the head of a Markdown table."""
    print()
    row(*titles)
    print("|" + "---|" * len(titles))
