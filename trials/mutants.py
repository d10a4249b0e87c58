"""The mutants: does a script tell a wrong program from the right one?

    python3 mutants.py SCRIPT EXPECTED [FILE...]

applies each mutant of the folder `mutants`, or of those of its files that are
named, to a temporary copy of the folder `second`, runs it on SCRIPT and holds
its output against EXPECTED, which is the output of the second program as it is.
A mutant is stopped at its first differing line. All must be told apart:
otherwise the exit status is 1 and those that were not are named. Two run at a
time.

Python's `assert` is switched off (-O), so that a mutant is told apart by its
answers and not by the second program's own cross-check.
"""

import os
import shutil
import subprocess
import sys
import tempfile
import threading
import time

HERE = os.path.dirname(os.path.abspath(__file__))
SECOND = os.path.join(HERE, os.pardir, "second")
AT_A_TIME = 2
LONGEST = 300                # seconds for one mutant


def read_mutants(path):
    # A mutant is four lines: "# what it is", the file, "-old text" and
    # "+new text". Blank lines stand between.
    with open(path, encoding="utf-8") as file:
        lines = [line for line in file.read().split("\n") if line]
    lines = [line for line in lines if not line.startswith("##")]
    mutants = []
    for place in range(0, len(lines), 4):
        what, name, old, new = lines[place:place + 4]
        if not (what.startswith("# ") and old.startswith("-") and new.startswith("+")):
            raise ValueError("not a mutant: " + what)
        mutants.append((what[2:], name, old[1:], new[1:]))
    return mutants


def make_copy(folder, mutant):
    what, name, old, new = mutant
    copy = os.path.join(folder, "second")
    shutil.copytree(SECOND, copy, ignore=shutil.ignore_patterns("__pycache__"))
    path = os.path.join(copy, name)
    with open(path, encoding="utf-8") as file:
        text = file.read()
    if text.count(old) != 1:
        raise ValueError("%s: the old text is there %d times" % (what, text.count(old)))
    with open(path, "w", encoding="utf-8") as file:
        file.write(text.replace(old, new))
    return os.path.join(copy, "bench.py")


def verdict(mutant, script, expected):
    # Gives the number of the first differing line, or None.
    folder = tempfile.mkdtemp(prefix="mutant-")
    try:
        bench = make_copy(folder, mutant)
        with open(script, "rb") as file:
            process = subprocess.Popen([sys.executable, "-O", bench], stdin=file,
                                       stdout=subprocess.PIPE, stderr=subprocess.DEVNULL)
        clock = threading.Timer(LONGEST, process.kill)
        clock.start()
        try:
            return first_difference(process.stdout, expected)
        finally:
            clock.cancel()
            process.kill()
            process.wait()
            process.stdout.close()
    finally:
        shutil.rmtree(folder)


def first_difference(output, expected):
    place = 0
    for line in output:
        if place >= len(expected) or line != expected[place]:
            return place + 1
        place += 1
    return None if place == len(expected) else place + 1


def work(mutants, script, expected, results):
    while True:
        try:
            number, mutant = mutants.pop(0)
        except IndexError:
            return
        try:
            results[number] = verdict(mutant, script, expected)
        except ValueError as problem:
            results[number] = "NOT MADE: %s" % problem


def main():
    if len(sys.argv) < 3:
        print(__doc__)
        return 2
    with open(sys.argv[2], "rb") as file:
        expected = file.read().splitlines(keepends=True)
    folder = os.path.join(HERE, "mutants")
    names = sys.argv[3:] or sorted(os.listdir(folder))
    mutants = [one for name in names for one in read_mutants(os.path.join(folder, name))]
    waiting, results = list(enumerate(mutants)), {}
    start = time.time()
    threads = [threading.Thread(target=work, args=(waiting, sys.argv[1], expected, results))
               for _ in range(AT_A_TIME)]
    for thread in threads:
        thread.start()
    for thread in threads:
        thread.join()
    bad = 0
    for number, (what, name, old, new) in enumerate(mutants):
        result = results.get(number)
        if isinstance(result, int):
            print("told apart in line %6d  %s: %s" % (result, name, what))
        else:
            bad += 1
            print("%s  %s: %s" % (result or "NOT TOLD APART", name, what))
    print("%d mutants, %d not told apart, %.0f s" % (len(mutants), bad, time.time() - start))
    return 1 if bad else 0


if __name__ == "__main__":
    sys.exit(main())
