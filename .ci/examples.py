"""Runs each command of the console blocks of the given documents, and compares what it prints.

A block is fenced by ```console, or stands between .EX and .EE in a man page. A line `$ COMMAND` is run by bash at the
top of the repository; the lines up to the next command are what it must print, on either stream. A last line
`[status N]` names an exit status other than 0. Commands other than `./rcpsp ..`, `./rcpsp_many ..`
and pipes into them are shown, and not run.
"""
import pathlib
import re
import subprocess
import sys

top = pathlib.Path(__file__).resolve().parent.parent
for first in (["./rcpsp", "schedule", "examples/e1.rcp"], ["./rcpsp_many", "examples/e1.rcp"]):
    subprocess.run(first, cwd=top, stdout=subprocess.DEVNULL, check=True)
passed = failed = 0


def blocks_of(name):
    text = (top / name).read_text()
    if name.endswith(".1"):
        return [block.replace("\\-", "-") for block in re.findall(r"^\.EX\n(.*?)^\.EE", text, re.M | re.S)]
    return re.findall(r"^```console\n(.*?)^```", text, re.M | re.S)


for name in sys.argv[1:]:
    for block in blocks_of(name):
        for part in re.split(r"^\$ ", block, flags=re.M)[1:]:
            command, _, wanted = part.partition("\n")
            if "./rcpsp " not in command and "./rcpsp_many " not in command:
                continue
            ran = subprocess.run(["bash", "-c", command], cwd=top, text=True, stdin=subprocess.DEVNULL,
                                 stdout=subprocess.PIPE, stderr=subprocess.STDOUT)
            given = ran.stdout + (f"[status {ran.returncode}]\n" if ran.returncode else "")
            if given == wanted:
                passed += 1
            else:
                failed += 1
                print(f"{name}: $ {command}\nwanted:\n{wanted}given:\n{given}")
print(f"examples: {passed} passed, {failed} failed")
sys.exit(1 if failed else 0)
