"""Runs the program `paths` on every case, the file given at once and in pieces, and holds what it writes to the model's sheet; and where it cannot read or write.

    python3 tests/mapfile/run_paths.py PROGRAM

PROGRAM is what `tools/native-program paths` prints. The last line is `N passed, M failed`; the exit status is 1 if some failed or none ran.
"""

import os
import subprocess
import sys
import time

from make_cases import all_cases

PIECES = 40


def run_in_pieces(program, file):
    """What the program writes, to either output, when its input comes a little at a time. It may stop reading once a file is too long."""
    size = len(file) // PIECES + 1
    with subprocess.Popen([program], stdin=subprocess.PIPE, stdout=subprocess.PIPE, stderr=subprocess.STDOUT, bufsize=0) as run:
        try:
            for at in range(0, len(file), size):
                run.stdin.write(file[at : at + size])
                time.sleep(0.0005)
            run.stdin.close()
        except BrokenPipeError:
            pass
        return run.stdout.read()


def run_at_once(program, file):
    """What the program writes, to either output, when its input is there from the start."""
    return subprocess.run([program], input=file, stdout=subprocess.PIPE, stderr=subprocess.STDOUT, check=True).stdout


def run_without_input(program):
    """What the program writes to its two outputs when its input cannot be read, being a folder."""
    folder = os.open(os.sep, os.O_RDONLY)
    try:
        run = subprocess.run([program], stdin=folder, capture_output=True, check=True)
    finally:
        os.close(folder)
    return run.stdout, run.stderr


def run_without_output(program):
    """What the program says when nothing can be written, the device being full."""
    with open("/dev/full", "wb") as full:
        return subprocess.run([program], input=b"", stdout=full, stderr=subprocess.PIPE, check=True).stderr


def outcomes(program):
    """The name of each case, and whether the program does on it what it has to."""
    for name, file, sheet in all_cases():
        for run in (run_at_once, run_in_pieces):
            yield f"{name}, {run.__name__}", run(program, file) == sheet
    yield "no input", run_without_input(program) == (b"", b"paths: standard input cannot be read\n")
    yield "no output", run_without_output(program) == b"paths: standard output cannot be written\n"


def main(words):
    """The command line; the exit status."""
    if len(words) != 1:
        sys.stderr.write(__doc__)
        return 2
    passed = failed = 0
    for name, good in outcomes(words[0]):
        if good:
            passed += 1
        else:
            failed += 1
            print(f"differs: {name}")
    print(f"{passed} passed, {failed} failed")
    return 1 if failed or not passed else 0


if __name__ == "__main__":
    sys.exit(main(sys.argv[1:]))
