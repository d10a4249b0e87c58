"""Compares two outputs of the bench.

    python3 compare.py A B [SCRIPT]

prints the first line in which A and B differ, with its number and, if the
script is given, the script's line; then how many lines differ. The exit
status is 1 if any does.
"""

import sys


def read_lines(path):
    with open(path, "rb") as file:
        return file.read().decode("latin-1").split("\n")[:-1]


def short(text):
    return text if len(text) <= 400 else text[:400] + " ..."


def differences(first, second):
    # The numbers (from 0) of the lines that differ; a missing line differs.
    both = min(len(first), len(second))
    found = [place for place in range(both) if first[place] != second[place]]
    return found + list(range(both, max(len(first), len(second))))


def line_at(lines, place):
    return short(lines[place]) if place < len(lines) else "(no such line)"


def report(first, second, script=None):
    # Prints what there is to say and gives the number of differing lines.
    found = differences(first, second)
    if found:
        place = found[0]
        print("first difference in line %d" % (place + 1))
        if script is not None:
            print("  script: " + line_at(script, place))
        print("  first:  " + line_at(first, place))
        print("  second: " + line_at(second, place))
    print("%d and %d lines, %d differ" % (len(first), len(second), len(found)))
    return len(found)


def main():
    if len(sys.argv) not in (3, 4):
        print(__doc__)
        return 2
    script = read_lines(sys.argv[3]) if len(sys.argv) == 4 else None
    return 1 if report(read_lines(sys.argv[1]), read_lines(sys.argv[2]), script) else 0


if __name__ == "__main__":
    sys.exit(main())
