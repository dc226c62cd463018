#!/usr/bin/env python3
"""Gives the built program what a hostile caller would: damaged and long texts, names, pipes, streams, many workers.

    tests/hostile.py [--texts N] [--rounds N] [--seed S]

Each run must end by itself within its time, with a status that the guide names. At status 0 and 4 there is output, and
standard error has the lines alone that `--live` asks for; at each other status there is no output and exactly one line.
The damaged texts come from a seeded generator, so that what is found can be seen again. Texts of 4 MB may take no more
than their share of the processor time that texts of 1 MB take. One instance is scheduled so many rounds by 64 workers
on two processors, with the same bytes each time. Prints what was tried, and what failed.
"""
import argparse
import concurrent.futures
import contextlib
import fcntl
import os
import pathlib
import random
import re
import subprocess
import sys
import tempfile
import threading
import time

TOP = pathlib.Path(__file__).resolve().parent.parent
sys.path.insert(0, str(TOP / "benches"))
from instances import instance  # noqa: E402

PROGRAM = TOP / "crates" / "rcpsp" / "out" / "rcpsp"
EXAMPLES = TOP / "examples"
SECONDS = 60
MOST = 4_194_304
NOBODY = 65534
NUMBERS = [b"0", b"1", b"2", b"9", b"16", b"17", b"1000", b"1001", b"65535", b"65536", b"4294967295", b"4294967296",
           b"-1", b"1.5", b"0" * 28 + b"1", b"x", b"\x00", b"\xff", b"\r", b"\x0b", b":", b"*" * 72]
GOOD = {
    "rcp": [(EXAMPLES / name).read_bytes() for name in ("e1.rcp", "e2.rcp", "e3.rcp", "misfit.rcp", "ring.rcp")],
    "sm": [(EXAMPLES / "e1.sm").read_bytes()],
    "list": [b"1 2 3 4 5 6\n", b"1 3 2 4 5 6"],
    "calendar": [(EXAMPLES / "holidays.txt").read_bytes(), b"2 1 1 0 1 3 2"],
    "plan": [(EXAMPLES / "plans" / "ana.csv").read_bytes(), (EXAMPLES / "plans" / "ben.csv").read_bytes()],
}
# The words of the runs that read a text of each kind on standard input.
WORDS = {
    "rcp": ["schedule - --format rcp", "schedule - --format rcp --workers 64 --live 3", "windows - --format=rcp",
            "schedule - --format rcp --improve --as=chart", "parallel - --format rcp --rule lft",
            "schedule - --format rcp --descend 20 --workers=1 --live=1", "sample - --format rcp --count 5 --workers 2",
            "sample - --format rcp --count 3 --all", "convert - --format rcp --to sm"],
    "sm": ["schedule - --format sm", "schedule - --format sm --live 2 --as csv", "parallel - --format sm",
           "convert - --format sm --to rcp"],
    "list": ["schedule examples/e1.rcp --list -", "parallel examples/e1.rcp --list -",
             "schedule examples/e1.rcp --list - --descend 9 --workers 3 --live 2"],
    "calendar": ["schedule examples/e1.rcp --calendar -", "parallel examples/e1.rcp --calendar -",
                 "schedule examples/e1.rcp --calendar - --workers 64 --live 9",
                 "schedule examples/e1.rcp --calendar - --descend 9 --improve"],
    "plan": ["check examples/e1.rcp -"],
}
# Long texts of each kind: what they begin with, and what then comes again and again.
LONG = {
    "rcp": [(b"", b" "), (b"", b"\n"), (b"", b"1"), (b"", b"1 "), (b"", bytes(range(256))), (b"1000 16 ", b"1 ")],
    "sm": [(b"", b" "), (b"", b"\n"), (b"", b"1"), (b"", b"1 "), (b"", bytes(range(256))), (b"", b"*** **\n"),
           (b"", b"jobs jobs: 1\n"), (b"jobs: 1000\n- renewable: 4\nPRECEDENCE RELATIONS:\n", b"1 ")],
    "list": [(b"", b" "), (b"", b"\n"), (b"", b"1"), (b"", b"1 "), (b"", bytes(range(256)))],
    "calendar": [(b"", b" "), (b"", b"1"), (b"", b"1 "), (b"4000000 ", b"1 1 1\n"), (b"", bytes(range(256)))],
    "plan": [(b"", b" "), (b"", b"1"), (b"", b"\n"), (b"", b'"'), (b"", bytes(range(256))), (b"activity,start\n", b"1"),
             (b"activity,start\n", b"1,"), (b"activity,start\n", b"1,0\n"), (b"activity,start\n1,", b'""')],
}


def damaged(rng, text):
    """A good text after one to four damages."""
    for _ in range(rng.randint(1, 4)):
        at, to = sorted(rng.randint(0, len(text)) for _ in range(2))
        kind = rng.randrange(7)
        if kind == 0:
            text = text[:at]
        elif kind == 1:
            text = text[:at] + text[to:]
        elif kind == 2:
            text = text[:at] + text[at:to] * rng.randint(2, 5) + text[to:]
        elif kind == 3:
            text = text[:at] + bytes([rng.randrange(256)]) + text[at + 1:]
        elif kind == 4:
            tokens = text.split(b" ")
            tokens[rng.randrange(len(tokens))] = rng.choice(NUMBERS)
            text = b" ".join(tokens)
        elif kind == 5:
            lines = text.split(b"\n")
            lines.insert(rng.randrange(len(lines) + 1), rng.choice(lines))
            text = b"\n".join(lines)
        else:
            text = text[:at] + rng.choice(NUMBERS) + text[at:]
    return text


def run(words, given=b"", **how):
    """The status and both outputs. A run that has not ended in time has no status."""
    how = {"stdout": subprocess.PIPE, "stderr": subprocess.PIPE, **({} if "stdin" in how else {"input": given}), **how}
    try:
        ran = subprocess.run([PROGRAM, *words], cwd=TOP, timeout=SECONDS, **how)
    except subprocess.TimeoutExpired:
        return None, b"", b""
    return ran.returncode, ran.stdout or b"", ran.stderr or b""


def live_lines(words):
    """How many live lines the words ask for."""
    found = re.search(r"--live[ =](\d+)", " ".join(map(os.fsdecode, words)))
    return int(found[1]) + 1 if found else 0


def fault(words, status, out, note):
    """What is wrong with how a run ended, if something is."""
    told = f"status {status} with output {out[:60]} and note {note[:60]}"
    if status in (0, 4):
        lines = re.fullmatch(rb"(booked \d+ of \d+\n){%d}" % live_lines(words), note)
        counts = [int(count) for count in re.findall(rb"booked (\d+)", note)]
        return None if out and lines and counts == sorted(counts) else told
    is_one_line = note.startswith(b"rcpsp: ") and note.endswith(b"\n") and note.count(b"\n") == 1
    return None if status in range(9) and not out and is_one_line else told


def tell(failures):
    """Prints what failed; answers how often."""
    for failure in failures:
        print(failure)
    return len(failures)


def try_text(job):
    """How a run on a damaged text ends, and what is wrong with that."""
    words, text = job
    status, out, note = run(words.split(), text)
    wrong = fault(words.split(), status, out, note)
    return status, wrong and f"{words} on {text!r}: {wrong}"


def try_texts(rng, count):
    """Damaged texts of each kind."""
    failed = 0
    with concurrent.futures.ThreadPoolExecutor(len(os.sched_getaffinity(0))) as pool:
        for kind, good in GOOD.items():
            jobs = [(rng.choice(WORDS[kind]), damaged(rng, rng.choice(good))) for _ in range(count)]
            ended = list(pool.map(try_text, jobs))
            failed += tell([wrong for _, wrong in ended if wrong])
            statuses = [status for status, _ in ended]
            told = [f"status {status} {statuses.count(status)} times" for status in sorted({*statuses}, key=str)]
            print(f"{count} damaged texts of kind {kind}: {', '.join(told)}", flush=True)
    return failed


def processor_seconds(words, text):
    """The status and both outputs of a run, and the processor time that it takes."""
    with tempfile.TemporaryFile() as given, tempfile.TemporaryFile() as out, tempfile.TemporaryFile() as note:
        given.write(text)
        given.seek(0)
        child = subprocess.Popen([PROGRAM, *words], cwd=TOP, stdin=given, stdout=out, stderr=note)
        end = threading.Timer(SECONDS, child.kill)
        end.start()
        _, ended, used = os.wait4(child.pid, 0)
        end.cancel()
        child.returncode = os.waitstatus_to_exitcode(ended)
        out.seek(0)
        note.seek(0)
        return child.returncode, out.read(), note.read(), used.ru_utime + used.ru_stime


def try_long_texts():
    """Texts as long as a file may be and a byte longer, which take no more than their share of time."""
    failures, most = [], 0
    for kind, texts in LONG.items():
        words = WORDS[kind][0].split()
        for begin, more in texts:
            whole = (begin + more * (MOST // len(more) + 1))[:MOST + 1]
            *_, short = processor_seconds(words, whole[:MOST // 4])
            status, out, note, taken = processor_seconds(words, whole[:MOST])
            longer = run(words, whole)
            most = max(most, taken)
            wrong = fault(words, status, out, note) or fault(words, *longer)
            if wrong or status not in (1, 4) or longer[0] != 8:
                failures.append(f"{begin + more!r}.. of kind {kind}: {wrong or (status, longer[0])}")
            if taken > 8 * short + 0.05:
                failures.append(f"{begin + more!r}.. of kind {kind}: {short:.3f} and then {taken:.3f} seconds")
    print(f"{sum(map(len, LONG.values()))} texts of 4 MB: at most {1000 * most:.0f} ms of processor time")
    return tell(failures)


def hostile_names(folder):
    """Rows of words, the status, and the note where it is not any one line."""
    six = GOOD["rcp"][0]
    for name, text in (("a\nb.rcp", six), ("c\nd.rcp", b""), ("good.rcp", six)):
        (folder / name).write_bytes(text)
    (folder / os.fsdecode(b"e\xff.rcp")).write_bytes(six)
    (folder / "round.rcp").symlink_to(folder / "round.rcp")
    at = str(folder)
    refused = f"rcpsp: {at}/c\nd.rcp: text ends at 0\n".encode()
    yield ["schedule", f"{at}/a\nb.rcp"], 0, None
    yield ["schedule", f"{at}/c\nd.rcp"], 1, refused
    yield ["schedule", os.fsencode(at) + b"/e\xff.rcp"], 2, None
    yield ["schedule", f"{at}/good.rcp", "--workers", "2"], 0, None
    for name in (at, "examples/none.rcp", "examples/e1.rcp/x.rcp", f"{at}/round.rcp", "/proc/self/mem", "x" * 5000):
        note = f"rcpsp: cannot read {name}\n".encode()
        yield ["schedule", name, "--format", "rcp"], 5, note
        yield ["schedule", "examples/e1.rcp", "--list", name], 5, note
        yield ["schedule", "examples/e1.rcp", "--calendar", name, "--live", "2"], 5, note
        yield ["check", "examples/e1.rcp", name], 5, note
    yield ["schedule", "/dev/null", "--format", "rcp"], 1, b"rcpsp: /dev/null: text ends at 0\n"
    yield ["schedule", "examples/e1.rcp", "--list", "/dev/null"], 1, None
    yield ["schedule", "/dev/zero", "--format", "rcp"], 8, b"rcpsp: /dev/zero is larger than 4194304 bytes\n"


def try_names(folder):
    """Names that a shell user may come to give."""
    failures, tried = [], 0
    for words, wanted, note in hostile_names(folder):
        tried += 1
        ended = run(words)
        is_told = ended[2] == note and not ended[1] if note else not fault(words, *ended)
        if ended[0] != wanted or not is_told:
            failures.append(f"{words}: {ended}")
    print(f"{tried} names of files")
    return tell(failures)


def try_locked(folder):
    """A file that may not be read. The superuser may read each, so another user runs the program then."""
    locked = folder / "locked.rcp"
    locked.write_bytes(GOOD["rcp"][0])
    folder.chmod(0o755)
    how = {"user": NOBODY, "group": NOBODY} if os.geteuid() == 0 else {}
    try:
        locked.chmod(0o644)
        ended = [run(["schedule", str(locked)], **how)[0]]
        locked.chmod(0)
        ended.append(run(["schedule", str(locked)], **how)[0])
    except PermissionError:
        print("a file that may not be read: not tried, since no other user can run the program")
        return 0
    return tell([] if ended == [0, 5] else [f"a file that may be read, and then not: {ended}"])


def write_slowly(pipe, pieces):
    """Writes pieces to a named pipe, until it is closed."""
    with contextlib.suppress(BrokenPipeError), open(pipe, "wb", buffering=0) as stream:
        for piece in pieces:
            stream.write(piece)
            time.sleep(0.02)


def try_pipes(folder):
    """Named pipes that end early, are written in pieces, or have more than a file may have."""
    six, pipe = GOOD["rcp"][0], folder / "pipe.rcp"
    os.mkfifo(pipe)
    plain, live, by_list = (words.format(pipe).split() for words in (
        "schedule {}", "schedule {} --live 2", "schedule examples/e1.rcp --list {}"))
    rows = [(plain, [six], 0), (plain, [six[:20]], 1), (plain, [], 1), (live, [six[:20], six[20:30], six[30:]], 0),
            (by_list, [b"1 2 3 4 5 6"], 0), (by_list, [b"1 2 3", b" 4 5"], 1), (plain, [b" " * (1 << 20)] * 9, 8)]
    failures = []
    for words, pieces, wanted in rows:
        writer = threading.Thread(target=write_slowly, args=(pipe, pieces), daemon=True)
        writer.start()
        ended = run(words)
        writer.join(SECONDS)
        if ended[0] != wanted or fault(words, *ended):
            failures.append(f"{words} of a pipe with {sum(map(len, pieces))} bytes: {ended}")
    print(f"{len(rows)} named pipes")
    return tell(failures)


def left_pipe(most):
    """The writing end of a small pipe whose reader takes at most so many bytes, and goes away."""
    reader, writer = os.pipe()
    fcntl.fcntl(writer, fcntl.F_SETPIPE_SZ, 4096)

    def take():
        if most:
            os.read(reader, most)
        os.close(reader)

    taking = threading.Thread(target=take)
    taking.start()
    if not most:
        taking.join()
    return writer


def streams_of(folder):
    """Rows of words, what is done to the streams, and how the run ends."""
    large, wide = folder / "large.rcp", folder / "wide.rcp"
    large.write_text(instance(998, 16, 10))
    wide.write_text(instance(118, 4, 10))
    given, six, live, many, samples, ring = (words.split() for words in (
        "schedule - --format rcp", "schedule examples/e1.rcp", "schedule examples/e1.rcp --live 1000 --workers 2",
        f"schedule {large}", f"sample {wide} --all --count 9999", "schedule examples/ring.rcp"))
    table = run(six)[1]
    unread, unwritten = (5, b"", b"rcpsp: cannot read -\n"), (6, b"", b"rcpsp: cannot write\n")
    full, for_reading, for_writing = ("/dev/full", os.O_WRONLY), ("/dev/null", os.O_RDONLY), ("/dev/null", os.O_WRONLY)
    in_folder = (folder, os.O_RDONLY)
    yield given, {"stdin": None}, unread
    yield given, {"stdin": in_folder}, unread
    yield given, {"stdin": for_writing}, unread
    yield six, {"stdin": None}, (0, table, b"")
    yield six, {"stdin": in_folder}, (0, table, b"")
    for stream in (None, full, for_reading, 0):
        yield six, {"stdout": stream}, unwritten
        yield many, {"stdout": stream}, unwritten
        yield six, {"stderr": stream}, (0, table, b"")
        yield ring, {"stderr": stream}, (1, b"", b"")
        yield live, {"stderr": stream}, (6, table, b"")
        yield live, {"stderr": stream, "stdout": full}, (6, b"", b"")
    yield many, {"stdout": 100}, unwritten
    yield samples, {"stdout": 100}, unwritten
    yield live, {"stderr": 50}, (6, table, b"")


def ended_with(words, streams):
    """How a run ends with these streams: opened so, a pipe that is left after so many bytes, or closed."""
    numbers = {"stdin": 0, "stdout": 1, "stderr": 2}
    closed = [numbers[name] for name, stream in streams.items() if stream is None]
    opened = {name: left_pipe(stream) if isinstance(stream, int) else os.open(*stream)
              for name, stream in streams.items() if stream is not None}
    ended = run(words, preexec_fn=lambda: [os.close(number) for number in closed], **opened)
    for stream in opened.values():
        os.close(stream)
    return ended


def try_streams(folder):
    """Streams that are closed, full, opened the wrong way, or left by their reader."""
    rows = list(streams_of(folder))
    failures = [f"{words} with {streams}: {ended}" for words, streams, wanted in rows
                if (ended := ended_with(words, streams)) != wanted]
    print(f"{len(rows)} streams")
    return tell(failures)


def try_rounds(folder, rounds):
    """One instance by 64 workers on two processors, so many times."""
    path = folder / "many.rcp"
    path.write_text(instance(118, 4, 10))
    words = ["schedule", str(path), "--workers"]
    wanted = run([*words, "1"])
    before = os.sched_getaffinity(0)
    os.sched_setaffinity(0, sorted(before)[:2])
    begun = time.monotonic()
    failures = [f"round {number}: {ended}" for number in range(rounds) if (ended := run([*words, "64"])) != wanted]
    os.sched_setaffinity(0, before)
    print(f"{rounds} rounds of 64 workers on {min(2, len(before))} processors: {time.monotonic() - begun:.1f} seconds")
    return tell(failures)


def main():
    parser = argparse.ArgumentParser(description=__doc__.split("\n")[0])
    parser.add_argument("--texts", type=int, default=10_000, help="damaged texts of each kind")
    parser.add_argument("--rounds", type=int, default=1000, help="rounds of 64 workers")
    parser.add_argument("--seed", type=int, default=1)
    words = parser.parse_args()
    # The program is built where it is not yet.
    subprocess.run(["./rcpsp", "schedule", "examples/e1.rcp"], cwd=TOP, stdout=subprocess.DEVNULL, check=True)
    with tempfile.TemporaryDirectory() as name:
        folder = pathlib.Path(name)
        failed = try_texts(random.Random(words.seed), words.texts) + try_long_texts() + try_names(folder)
        failed += try_locked(folder) + try_pipes(folder) + try_streams(folder) + try_rounds(folder, words.rounds)
    print(f"hostile: {failed} failed")
    return 1 if failed else 0


if __name__ == "__main__":
    sys.exit(main())
