"""What a script reaches: a table of counts.

    python3 coverage.py < script

runs the second program on the script with counters in it and prints how
often each thing was reached. A row with the count 0 is named at the end, and
the exit status is then 1.
"""

import os
import sys

HERE = os.path.dirname(os.path.abspath(__file__))
sys.path.insert(0, os.path.join(HERE, os.pardir, "second"))

from bench import OPERATIONS, Bench  # noqa: E402
from reads import READ_MODE          # noqa: E402
from counted_left import count_anew, count_left_put, count_other_lines, count_shown, count_x_of_counts  # noqa: E402
from counted_wirings import count_malformed_field, count_new_memory, count_put, count_x_of_wirings  # noqa: E402
from counted_writes import count_beside  # noqa: E402
from counting import CountingChip, settle  # noqa: E402
from plane import how_far_out        # noqa: E402
from rows import OPERATION_NAMES, SIDES, counts, reached, rows  # noqa: E402
from sheet import (BLOCK_SIZE, CIRCLE, GLYPH, LINE, RECTANGLE, Refused, cut_into_blocks, decode,  # noqa: E402
                   has_a_dot_outside, largest_i, read_sheet, record_of, smallest_fitting_direction)
from wiring import OPEN              # noqa: E402

KIND_NAMES = ["", "dot", "line", "rectangle", "glyph", "circle"]


class CountingBench(Bench):

    def count_line(self, line):
        if line[:1] == "X" and len(line) == 1:
            self.count_start_of_x()
        wiring, left, sound, figure = self.chip.wiring, self.chip.left, self.chip.sound(), self.chip.figure is not None
        answer = self.answer(line)
        letter, *fields = line.split(" ")
        count_other_lines(letter, fields, answer, sound)
        if answer == "?":
            self.count_malformed(line, letter)
            count_malformed_field(letter, fields)
            return
        reached("line " + letter)
        if letter == "M":
            reached("refusal 2" if answer == "M 2" else "memory of %d words" % len(self.chip.memory))
        if letter in ("M", "O"):
            count_new_memory(letter, fields[0], answer, wiring, len(self.chip.memory))
            count_anew(letter, self.chip, answer, sound, figure)
        if letter in ("F", "J"):
            self.count_field(letter, fields, wiring, left)
        if letter in ("T", "X"):
            self.count_sheet(letter, line, [int(field, 16) for field in answer.split(" ")[1:4]])

    def count_field(self, letter, fields, wiring, left):
        # F or J, done; the wiring and the count before it.
        if letter == "J" and fields[0] == "108":
            count_put(self.chip, wiring)
        elif letter == "J":
            count_left_put(self.chip, fields[1], left)
        elif fields[0] == "108":
            reached("F 108 gives %d" % wiring)
        else:
            count_shown(self.chip)

    def send_all(self, entries):
        self.chip.by_x = True
        units = Bench.send_all(self, entries)
        self.chip.by_x = False
        return units

    def count_malformed(self, line, letter):
        if len(line) > 20000:
            reached("? for a line too long")
        elif line == "":
            reached("? for an empty line")
        elif letter in OPERATIONS:
            reached("? for " + letter)
        else:
            reached("? for another line")

    def count_start_of_x(self):
        try:
            figures = read_sheet(self.picture, self.glyphs, self.sheet)
        except Refused:
            return
        chip = self.chip
        count_x_of_wirings(self)
        count_x_of_counts(self)
        if self.may_be_held_to_the_geometry():
            reached("X held to the geometry")
            count_beside(chip, "X held to the geometry")
            if any(figure.kind == CIRCLE for figure in figures):
                reached("X of circles held to the geometry")
            if chip.half_word is not None:
                reached("X with a half-sent word")
            if bin(chip.mask).count("1") != 1:
                reached("X with a mask not one-hot")
        if self.picture_size_in_words() > len(chip.memory) and chip.wiring != OPEN:
            reached("X of a picture that does not fit")
        if chip.mode == READ_MODE:
            reached("X in read mode")
        elif chip.figure is not None:
            reached("X with a figure in progress")
            if chip.figure.kind == "arc":
                reached("X with an arc " + ("before its first dot" if chip.figure.place == 0 else "between dots"))
        elif chip.buffer:
            reached("X with entries waiting")
            if len(chip.buffer) == 16:
                reached("X with a full buffer")

    def count_sheet(self, letter, line, numbers):
        number, first, second = numbers
        reached("%s gives %d" % (letter, number))
        if number == 0:
            self.count_good_sheet(letter, line, first)
            return
        if 14 <= number <= 19 and first > 0:
            reached("%d in a later block" % number)
        if 16 <= number <= 19 and second > 0:
            reached("%d in a later record" % number)
        if number == 11:
            self.count_11()
        elif number == 12:
            reached("12 by eights" if len(self.glyphs) % 8 else "12 by size")
        elif number == 13:
            size = len(self.sheet)
            reached("13 empty" if size == 0 else "13 no blocks" if size % BLOCK_SIZE else "13 over 16")
        elif number == 15:
            self.count_15(cut_into_blocks(self.sheet), first)
        elif number == 16:
            self.count_16(record_of(cut_into_blocks(self.sheet)[first], second))
        elif number == 19:
            self.count_19(decode(record_of(cut_into_blocks(self.sheet)[first], second)))
        elif number == 18:
            self.count_18(decode(record_of(cut_into_blocks(self.sheet)[first], second)))
        elif number == 20:
            if first > 65535 and int(line.split(" ")[1], 16) == first - 1:
                reached("sheet: over 65,535 entries, one too few")

    def count_11(self):
        words, lines = self.picture
        if not 1 <= words <= 255:
            reached("11 by P")
        elif not 1 <= lines <= 4096:
            reached("11 by H")
        else:
            reached("11 by P * H")

    def count_15(self, blocks, first):
        block = blocks[first]
        if block[0] + 256 * block[1] != first:
            reached("15 by number")
        elif block[2] > 50:
            reached("15 by count")
        elif block[3] != (1 if first == len(blocks) - 1 else 0):
            reached("15 by last")
        elif any(block[504:510]):
            reached("15 by spare bytes")
        else:
            reached("15 by unused records")

    def count_16(self, record):
        if not 1 <= record[0] <= 5:
            reached("16 by kind")
            return
        if record[1] > 3:
            reached("16 by operation")
        else:
            reached("16 by a %s's bytes" % KIND_NAMES[record[0]])
        if record[0] == CIRCLE:
            self.count_16_of_circle(record, decode(record))

    def count_16_of_circle(self, record, figure):
        if record[1] > 3:
            reached("16 by a circle's operation")
        elif record[8] == 0:
            reached("16 by a circle's byte 9 alone")
        elif record[9] == 0:
            reached("16 by a circle's byte 8 alone")
        if not 1 <= figure.radius <= 2000:
            reached("16 by a circle's form, 18 as well")
        elif has_a_dot_outside(figure, self.picture):
            reached("16 by a circle's form, 19 as well")

    def count_18(self, figure):
        if figure.kind == GLYPH:
            reached("18 by a factor")
            return
        r = figure.radius
        reached("18 by " + ("radius 0" if r == 0 else "radius 2,001" if r == 2001 else "a radius over 2,001"))
        if has_a_dot_outside(figure, self.picture):
            reached("18 by a radius, 19 as well")

    def count_19(self, figure):
        reached("19 by a " + KIND_NAMES[figure.kind])
        if figure.kind == CIRCLE:
            r = figure.radius
            reached("19 by a circle of " + ("radius 2,000" if r == 2000 else "1 to 1,023" if r < 1024 else "1,024 to 1,999"))
            room = self.room_beside(figure)
            for side in SIDES:
                if room[side] == -1 and min(room.values()) == -1 and list(room.values()).count(-1) == 1:
                    reached("19 by a circle one dot past the %s alone" % side)

    def room_beside(self, circle):
        # How many dots of the picture lie past each end of a circle.
        return {"left": circle.x - circle.radius, "top": circle.y - circle.radius,
                "right": 16 * self.picture.words - 1 - circle.x - circle.radius,
                "bottom": self.picture.lines - 1 - circle.y - circle.radius}

    def count_good_sheet(self, letter, line, entries):
        figures = read_sheet(self.picture, self.glyphs, self.sheet)
        blocks = cut_into_blocks(self.sheet)
        words, lines = self.picture
        facts = {
            "no figures": not figures, "1 block": len(blocks) == 1, "16 blocks": len(blocks) == 16,
            "2 to 15 blocks": 2 <= len(blocks) <= 15, "a block of 50": any(block[2] == 50 for block in blocks),
            "800 figures": len(figures) == 800, "P 1": words == 1, "P 255": words == 255, "H 1": lines == 1,
            "H 4096": lines == 4096, "P * H = 262144": words * lines == 262144,
            "exact room": letter == "T" and int(line.split(" ")[1], 16) == entries,
            "800 circles": len(figures) == 800 and all(figure.kind == CIRCLE for figure in figures),
            "circles beside other kinds": len({figure.kind == CIRCLE for figure in figures}) == 2,
        }
        facts["over 65,535 entries in exact room"] = facts["exact room"] and entries > 65535
        for what, holds in facts.items():
            if holds:
                reached("sheet: " + what)
        for figure in figures:
            self.count_sheet_figure(figure)

    def count_sheet_figure(self, figure):
        reached("translated by " + OPERATION_NAMES[figure.operation])
        if figure.kind == GLYPH:
            reached("translated: glyph")
            reached("glyph factor %d" % figure.factor)
            if figure.number == 255:
                reached("sheet: glyph 255")
        elif figure.kind == LINE:
            self.count_sheet_line(figure)
        elif figure.kind == RECTANGLE:
            across, down = figure.x1 != figure.x, figure.y1 != figure.y
            reached("translated: " + {(True, True): "rectangle", (True, False): "flat rectangle",
                                      (False, True): "standing rectangle",
                                      (False, False): "rectangle of one dot"}[across, down])
        elif figure.kind == CIRCLE:
            self.count_sheet_circle(figure)
        else:
            reached("translated: dot")
        if max(figure.x, figure.x1) == 16 * self.picture.words - 1:
            reached("sheet: a dot in the last column")
        if max(figure.y, figure.y1) == self.picture.lines - 1:
            reached("sheet: a dot in the last line")

    def count_sheet_circle(self, figure):
        r = figure.radius
        reached("translated: circle")
        reached("circle by " + OPERATION_NAMES[figure.operation])
        gap = how_far_out(r, largest_i(r)) - largest_i(r)
        reached("circle: " + ["last dots coincide", "last dots side by side", "open"][gap])
        if r == 1:
            reached("circle: radius 1")
        if r > 255:
            reached("circle: radius over 255")
        if r == 1023:
            reached("circle: radius 1,023")
        for side, room in self.room_beside(figure).items():
            if room == 0:
                reached("circle at the %s edge" % side)

    def count_sheet_line(self, figure):
        right, down = figure.x1 - figure.x, figure.y1 - figure.y
        reached("line DIR %d" % smallest_fitting_direction(right, down))
        if right == down == 0:
            reached("translated: line of one dot")
        elif abs(right) == abs(down):
            reached("translated: diagonal line")
        else:
            reached("translated: line")
        if max(abs(right), abs(down)) == 4095:
            reached("sheet: N = 4095")


def main():
    bench = CountingBench(CountingChip)
    operations = 0
    for line in sys.stdin.buffer.read().decode("latin-1").split("\n")[:-1]:
        bench.count_line(line)
        operations += 1
    settle()
    table = rows()
    for row in table:
        print("%9d  %s" % (counts[row], row))
    missing = [row for row in table if counts[row] == 0]
    unlisted = sorted(set(counts) - set(table))
    print("%d operations, %d rows, %d of them never reached" % (operations, len(table), len(missing)))
    for row in missing:
        print("NEVER REACHED: " + row)
    for row in unlisted:
        print("counted but not in the table: " + row)
    return 1 if missing else 0


if __name__ == "__main__":
    sys.exit(main())
