"""The generator of trial scripts.

    python3 generate.py --seed S --operations N [--random-only]

writes a script of N operations in the bench's language to standard output,
the same for the same S and N on every machine. First come the hand-written
cases of the folder `cases`, in the order of their names; then seeded random
episodes until N operations are written (the cases always come whole, so the
script is longer than N if N is less than they need).

Each episode has a random seed of its own, of S, its kind and its number among
its kind; so a new kind puts its episodes between the others and changes none
of them. What one episode leaves to the next are the memory's length, the
picture's size and the number of glyphs: a new kind that sets them for itself
puts them back, and the folded wiring and a true count with the length.

The generator knows the language and the layout of commands and sheets; it
never runs the second program. It keeps the work bounded: a run with an
enormous budget, or a drawn sheet, stands only where nothing large can be in
progress.
"""

import argparse
import heapq
import os
import random
import sys

from casebook import expand_cases
from counts import Counts

# The weight table: how many of each kind are taken while others take theirs.
WEIGHTS = {
    "loose": 14,            # any bytes to any port
    "figure": 30,           # a figure with its registers, cut by small runs
    "wide": 4,              # a character past 16 or 32 bits, cut by small runs
    "write": 10,            # WDAT of all types
    "sets": 12,             # whole WDAT sets, by any sync byte and GD
    "read": 12,             # RDAT of all types
    "answers": 6,           # CURD, LPRD, the light pen
    "partial": 12,          # commands with too few or too many parameters
    "flood": 5,             # the buffer filled to the brim
    "memory": 7,            # another memory length
    "good_sheet": 14,       # a lawful sheet, translated and drawn
    "damaged_sheet": 14,    # a sheet with one or more faults
    "odd_sizes": 7,         # pictures, glyph tables, sheets of odd sizes
    "malformed": 5,         # lines that are not of the language
    "arc": 12,              # an arc with its registers, cut by small runs
    "circle_sheet": 4,      # a lawful sheet with circles, drawn
    "damaged_circles": 6,   # a sheet with circles and faults in them
    "odd_board": 16,        # open wiring, odd lengths, the wiring put in the midst of work
    "odd_sheet": 8,         # a lawful sheet on a board of its size, or of a few words less
    "cycles_left": 12,      # a figure or other work, the cycles left asked after its units
    "false_count": 14,      # counts put, true and false, with entries between
}


class Generator(Counts):
    """Random episodes of every kind."""

    def random_operations(self, seed, wanted):
        # Episodes, each with a look after it, until enough lines are there.
        self.new_memory(16)
        for kind, chances in episodes(seed):
            if len(self.lines) >= wanted:
                return self.lines[:wanted]
            self.random = chances
            getattr(self, kind)()
            self.look()


def episodes(seed):
    """Without end: each episode's kind and its own chances.

    The n-th of a kind with weight w comes at a time between n / w and (n + 1) / w.
    """
    waiting = [turn(seed, kind, 0) for kind in WEIGHTS]
    heapq.heapify(waiting)
    while True:
        _, kind, number, chances = waiting[0]
        heapq.heapreplace(waiting, turn(seed, kind, number + 1))
        yield kind, chances


def turn(seed, kind, number):
    # A text as the seed gives the same numbers on every machine.
    chances = random.Random("%d %s %d" % (seed, kind, number))
    return (number + chances.random()) / WEIGHTS[kind], kind, number, chances


def make_script(seed, operations, with_cases=True):
    lines = []
    if with_cases:
        lines = expand_cases(os.path.join(os.path.dirname(os.path.abspath(__file__)), "cases"))
    return lines + Generator().random_operations(seed, max(0, operations - len(lines)))


def main():
    parser = argparse.ArgumentParser(description="writes a trial script")
    parser.add_argument("--seed", type=int, required=True)
    parser.add_argument("--operations", type=int, required=True)
    parser.add_argument("--random-only", action="store_true", help="without the hand-written cases")
    wanted = parser.parse_args()
    script = make_script(wanted.seed, wanted.operations, not wanted.random_only)
    sys.stdout.write("\n".join(script) + "\n")


if __name__ == "__main__":
    main()
