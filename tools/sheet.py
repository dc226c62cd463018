#!/usr/bin/env python3
"""Makes a Patterson instance of a spreadsheet that was saved as CSV.

    tools/sheet.py examples/house.csv crew=5 crane=1 > house.rcp

The first record names the columns: `task`, `duration`, one column for each resource that the words give a capacity, and
`then`, the tasks that may begin once this one is done, with a space or a comma between. A name is one word. Tasks are numbered in the order of
the records; `--names` prints these numbers with their names instead.
"""
import argparse
import csv
import re
import sys


def fail(why):
    sys.exit(f"sheet: {why}")


def number(row, column, line):
    """The whole number of a column."""
    text = (row.get(column) or "0").strip()
    if not re.fullmatch(r"[0-9]+", text):
        fail(f"record {line}: {column} is {text!r}, and not a whole number")
    return int(text)


def main():
    parser = argparse.ArgumentParser(description="Makes a Patterson instance of a spreadsheet that was saved as CSV.")
    parser.add_argument("sheet", help="the CSV file")
    parser.add_argument("capacity", nargs="*", help="a column and how much there is of it, as crew=5")
    parser.add_argument("--names", action="store_true", help="print the number and the name of each task")
    words = parser.parse_args()
    capacities = dict(word.partition("=")[::2] for word in words.capacity)
    with open(words.sheet, newline="", encoding="utf-8-sig") as file:
        rows = list(csv.DictReader(file))
    numbers = {row["task"].strip(): place for place, row in enumerate(rows, 1)}
    if len(numbers) < len(rows):
        fail("two records name the same task")
    for name in numbers:
        if not re.fullmatch(r"[^\s,;]+", name):
            fail(f"a task's name is one word, which {name!r} is not")
    if words.names:
        print("\n".join(f"{place} {name}" for name, place in numbers.items()))
        return
    for column, capacity in capacities.items():
        if not capacity.isdigit() or rows and column not in rows[0]:
            fail(f"{column}={capacity} is no column with a whole number")
    print(len(rows), len(capacities))
    print(*capacities.values())
    for line, row in enumerate(rows, 2):
        later = [name for name in re.split(r"[\s,;]+", row.get("then") or "") if name]
        for name in later:
            if name not in numbers:
                fail(f"record {line}: there is no task {name!r}")
        demands = [number(row, column, line) for column in capacities]
        print(number(row, "duration", line), *demands, len(later), *(numbers[name] for name in later))


if __name__ == "__main__":
    main()
