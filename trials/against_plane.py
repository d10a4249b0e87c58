"""The controller against the geometry, on many random sheets.

    python3 against_plane.py --sheets N --seed S [--open]
    python3 against_plane.py --radii --seed S

Each sheet, with circles among its figures, is translated and drawn by the
model of the controller from a random register set (write mode, empty buffer,
nothing being drawn), and the memory is held against what plane.py paints. The
first difference stops the program with the `assert` in bench.py. It tries the
second program against itself and has no part in comparing it with the proved
program. With --radii each sheet is one circle: every radius that a lawful
picture holds, 1 to 1,023. With --open the wiring is open and the length any
from 16 on: the picture's own, some words more, or less than the picture has.
"""

import argparse
import os
import random
import sys
import time

HERE = os.path.dirname(os.path.abspath(__file__))
sys.path.insert(0, os.path.join(HERE, os.pardir, "second"))

from basics import LENGTHS, LENGTH_WEIGHTS  # noqa: E402
from bench import Bench              # noqa: E402
from building import block_body, number_bytes, record, with_check  # noqa: E402
from chip import Chip                # noqa: E402
from generate import Generator       # noqa: E402
from wiring import FOLDED, OPEN      # noqa: E402


class Maker(Generator):
    """The generator's sheets, with circles, and larger figures now and then."""

    circles = 0.3

    def circle_record(self, most, left):
        return Generator.circle_record(self, most, left + (6000 if self.chance(0.1) else 0))

    def near(self, value, limit):
        if self.chance(0.1):
            return self.pick([0, limit - 1, self.below(limit)])
        return Generator.near(self, value, limit)


def random_registers(chip, chances):
    chip.ead, chip.mask = chances.randrange(0x40000), chances.randrange(0x10000)
    chip.pitch, chip.figs = chances.randrange(256), chances.randrange(256)
    chip.dc, chip.d, chip.d2, chip.d1, chip.dm = [chances.randrange(0x4000) for _ in range(5)]
    chip.gd, chip.operation, chip.zoom = chances.randrange(2), chances.randrange(4), chances.randrange(256)
    chip.pram = [chances.randrange(256) for _ in range(16)]
    chip.sync = [chances.randrange(256) for _ in range(8)]
    chip.command = chances.choice([None, chances.randrange(256)])
    chip.taken = chances.randrange(14)
    if chip.command in (0x20, 0x21, 0x22, 0x23) and chances.random() < 0.5:
        chip.half_word = chances.randrange(256)


def open_length(maker):
    # Of a board for the picture: as many words, some more, some lacking.
    size = maker.words * maker.height
    more = maker.pick([0, 0, 0, 0, 1, maker.below(100), -1, -maker.below(100), -maker.below(size)])
    return max(16, min(size + more, 0x40000))


def one_sheet(maker, bench, wiring):
    maker.lines = []
    maker.length = maker.random.choices(LENGTHS, LENGTH_WEIGHTS)[0]
    words = maker.below(min(255, maker.length)) + 1
    if maker.chance(0.5):
        words = maker.below(min(12, maker.length)) + 1
    height = min(4096, maker.length // words)
    maker.set_picture(words, height if maker.chance(0.5) else maker.below(height) + 1)
    maker.choose_glyphs(maker.pick([1, 2, 3, 256]) if maker.chance(0.3) else 2)
    bodies, needed = maker.random_blocks()
    maker.emit_sheet(b"".join(with_check(body) for body in bodies))
    if wiring == OPEN:
        maker.length = open_length(maker)
    bench.chip = Chip(maker.length, wiring)
    bench.chip.memory = [maker.random.getrandbits(16) for _ in range(maker.length)]
    random_registers(bench.chip, maker.random)
    for line in maker.lines:
        assert bench.answer(line).endswith(" 0"), line
    assert bench.may_be_held_to_the_geometry()
    answer = bench.answer("X").split(" ")
    assert answer[:4] == ["X", "0", "%X" % needed, "0"], answer
    circles = sum(body[4 + 10 * index] == 5 for body in bodies for index in range(body[2]))
    return int(answer[4], 16), circles


def one_radius(maker, bench, r):
    # COMPLEMENT of one circle, anywhere in the largest square picture. A dot
    # changed twice would be missing from it.
    bench.answer("M 40000")
    bench.answer("Q 80 800")
    x, y = r + maker.below(2048 - 2 * r), r + maker.below(2048 - 2 * r)
    body = block_body(0, 1, 1, [record(5, 1, x, y, number_bytes(r) + [0, 0])])
    bench.sheet = with_check(body)
    random_registers(bench.chip, maker.random)
    assert bench.may_be_held_to_the_geometry()
    answer = bench.answer("X").split(" ")
    units = int(answer[4], 16)
    assert units == 163 + sum(bin(word).count("1") for word in bench.chip.memory if word), answer
    return units, 1


def main():
    parser = argparse.ArgumentParser(description="the controller against the geometry")
    parser.add_argument("--sheets", type=int, default=1000)
    parser.add_argument("--seed", type=int, default=1)
    parser.add_argument("--radii", action="store_true")
    parser.add_argument("--open", action="store_true", help="open wiring, any length")
    wanted = parser.parse_args()
    maker, bench = Maker(random.Random(wanted.seed)), Bench()
    start = time.time()
    if wanted.radii:
        drawn = [one_radius(maker, bench, r) for r in range(1, 1024)]
    else:
        drawn = [one_sheet(maker, bench, OPEN if wanted.open else FOLDED) for _ in range(wanted.sheets)]
    print("%d sheets with %d circles, %d units, no difference, %.0f s" % (
        len(drawn), sum(circles for _, circles in drawn), sum(units for units, _ in drawn), time.time() - start))


if __name__ == "__main__":
    main()
