"""Prints what a run of the gate did, crate by crate, in the order in which the crates ended.

    gate.py LOG [TIME]

LOG is what `rt ci` wrote. TIME, if given, is what `/usr/bin/time -v rt ci` wrote, which may be LOG itself. A row has the
crate's name, the functions that were proved with it, the test functions and their helpers that were proved with its tests,
its tests, its wrong bodies that were refused, and `*` where something of it failed. The last row has the sums. LOG has
no times, so only TIME tells the processor minutes, those of the whole run.
"""
import re
import sys

COLUMNS = ("crate", "functions", "of tests", "tests", "wrong bodies")
PROVED = re.compile(r"logic=proved (?:tests=(\d+) )?functions=(\d+)")
EDIT = re.compile(r"(?:rt: )?must-fail (\w+)/\S+\.edit: (refused)?")
SECTION = re.compile(r"== (\w+)(: its tests)?")
TIMES = re.compile(r"\s*(?:User|System) time \(seconds\): ([\d.]+)")


class Crate:
    """What the log says of one crate."""

    def __init__(self):
        self.functions = self.with_tests = self.tests = self.edits = 0
        self.failed = False

    def row(self):
        return self.functions, max(self.with_tests - self.functions, 0), self.tests, self.edits


def crates_of(lines):
    """The crates by name, in the order in which the log names them first."""
    crates, now, of_tests = {}, None, False
    for line in lines:
        if section := SECTION.match(line):
            now = crates.setdefault(section[1], Crate())
            of_tests = bool(section[2])
        elif edit := EDIT.match(line):
            crate = crates.setdefault(edit[1], Crate())
            crate.edits += edit[2] is not None
            crate.failed |= edit[2] is None
        elif now and (proved := PROVED.match(line)):
            if of_tests:
                now.tests, now.with_tests = int(proved[1] or 0), int(proved[2])
            else:
                now.functions = int(proved[2])
        elif failed := re.match(r"rt: FAILED: (.*)", line):
            for name in re.findall(r"\w+", failed[1]):
                if name in crates:
                    crates[name].failed = True
        elif now and re.search(r"\.\.\. FAILED|: not proved|logic=not-proved", line):
            now.failed = True
    return crates


def print_table(crates):
    width = max(map(len, (COLUMNS[0], "all", *crates)))
    print(f"{COLUMNS[0]:{width}}", *(f"{name:>12}" for name in COLUMNS[1:]))
    rows = [(name, crate.row(), crate.failed) for name, crate in crates.items()]
    sums = tuple(map(sum, zip(*(row for _, row, _ in rows)))) or (0,) * 4
    for name, row, failed in [*rows, ("all", sums, False)]:
        print(f"{name:{width}}", *(f"{count:12}" for count in row), *("*" if failed else ""))


if __name__ == "__main__":
    if len(sys.argv) not in (2, 3):
        sys.exit(__doc__)
    with open(sys.argv[1], encoding="utf-8") as log:
        print_table(crates_of(log))
    if len(sys.argv) == 3:
        with open(sys.argv[2], encoding="utf-8") as told:
            seconds = [float(time[1]) for line in told if (time := TIMES.match(line))]
        print(f"processor minutes: {sum(seconds) / 60:.1f}" if seconds else "processor minutes: not told")
