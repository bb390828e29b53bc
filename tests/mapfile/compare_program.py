"""Runs random map files through the program `mapcases` and holds each sheet to the model's.

    python3 tests/mapfile/compare_program.py PROGRAM [COUNT [SEED]]

PROGRAM is what `tools/native-program mapcases` prints. The last line is `N passed, M failed`; the exit status is 1 if some failed or none ran.
"""

import collections
import random
import subprocess
import sys

import random_files
import sheet_model
from make_cases import framed, tool

BATCH = 2000


def given_sheets(given, cases):
    """The sheet that the program printed for each case, by the lines with their names; the last one has all that is left."""
    sheets = []
    for name, _, sheet in cases:
        title = b"case " + name.encode() + b"\n"
        if given.startswith(title + sheet):
            end = len(title + sheet)
        else:
            end = (given.find(b"\ncase ", len(title)) + 1) or len(given)
        sheets.append(given[:end].removeprefix(title))
        given = given[end:]
    sheets[-1] += given
    return sheets


def kind_of(sheet):
    """What a sheet says, for the summary."""
    first, *rest = sheet.decode().splitlines()
    return "bad map" if first.startswith("bad") else " ".join([first] + [line for line in rest if line.startswith("refused")])


def main(words):
    """The command line; the exit status."""
    if not 1 <= len(words) <= 3:
        sys.stderr.write(__doc__)
        return 2
    program = words[0]
    count = int(words[1]) if len(words) > 1 else 10000
    rng = random.Random(int(words[2]) if len(words) > 2 else 1)
    passed = failed = 0
    kinds = collections.Counter()
    while passed + failed < count:
        size = min(BATCH, count - passed - failed)
        files = [(random_files.damaged if rng.random() < 0.25 else random_files.sound)(rng) for _ in range(size)]
        cases = [(str(i), file, sheet_model.sheet(file)) for i, file in enumerate(files)]
        run = subprocess.run([program], input=framed(cases), stdout=subprocess.PIPE, check=True)
        for (_, file, sheet), given in zip(cases, given_sheets(run.stdout, cases)):
            kinds[kind_of(sheet)] += 1
            if given == sheet:
                passed += 1
            else:
                failed += 1
                print(f"differs:\n{tool.unpack(file)[0]}model:\n{sheet.decode()}program:\n{given.decode(errors='replace')}")
    for kind, number in sorted(kinds.items()):
        print(f"{kind}: {number}")
    print(f"{passed} passed, {failed} failed")
    return 1 if failed or not passed else 0


if __name__ == "__main__":
    sys.exit(main(sys.argv[1:]))
