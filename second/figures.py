"""The figures: how FIGD and GCHRD begin, what one cycle does, which way they step.

A part of the SECOND PROGRAM, written from the paper alone (see chip.py); the
sentences about arcs are those of request M-100. The class `Figures` holds the
functions of the controller that draw; `Chip` in chip.py is made upon it.
"""

from steps import step


class Figure:
    """A figure in progress: "Figures and reads work on copies of DC to DM."

    `dots` is how many dots it has, `place` how many of them are done. An arc
    has `passed` dots before them, which it passes over.
    """

    def __init__(self, chip, kind, dots, passed=0):
        self.kind = kind
        self.dots = dots
        self.passed = passed
        self.place = 0
        self.direction = chip.figs & 7
        self.dc, self.d, self.d2 = chip.dc, chip.d, chip.d2
        self.d1, self.dm = chip.d1, chip.dm
        self.row_start = (chip.ead, chip.mask)     # used by characters
        self.factor = (chip.zoom & 15) + 1         # used by characters
        self.arc_d, self.arc_d2, self.arc_d1 = signed(chip.d), signed(chip.d2), signed(chip.d1)   # used by arcs


class Figures:
    """What the controller does to draw."""

    def start_figd(self):
        # "Other types, or GC under FIGD, or GCHRD without GC, draw nothing."
        figure_type = self.figs >> 3
        if figure_type == 0b00000:
            # "Type 00000: DC + 1 dots along DIR."
            self.start_figure("dots", self.dc + 1)
        elif figure_type == 0b00001:
            # "L: DC + 1 dots."
            self.start_figure("line", self.dc + 1)
        elif figure_type == 0b01000:
            # "R: four sides ... of D, D2, D, D2 dots"
            self.start_figure("rectangle", 2 * self.d + 2 * self.d2)
        elif figure_type == 0b00100:
            # "FIGD with the A bit alone draws an arc"
            self.start_arc()

    def start_arc(self):
        # "for i = 0 to DC, dots with i below DM are passed over without a
        # cycle". DC and DM are unsigned: "up to 16,383 steps".
        dots = self.dc + 1 - self.dm
        if dots >= 1:
            self.start_figure("arc", dots, self.dm)
        else:
            # "... in the unit ... that takes FIGD if no dot is left to draw;
            # there 01's "changes nothing more" gives way and the DC moves are
            # made."
            self.arc_moves(Figure(self, "arc", 0), self.dc)

    def arc_moves(self, figure, moves):
        # "The mask and cursor move on passed-over dots"
        for _ in range(moves):
            self.figure_step(figure)

    def start_gchrd(self):
        # "GC by GCHRD: with factor g (ZOOM's low nibble + 1), (DC + 1)·g
        # rows of D·g dots"
        if self.figs >> 3 == 0b00010:
            factor = (self.zoom & 15) + 1
            self.start_figure("character", (self.dc + 1) * factor * self.d * factor)

    def start_figure(self, kind, dots, passed=0):
        # "A figure of no dots ... changes nothing more and ends in the unit
        # that takes its command." The count of cycles left (M-103) is all of
        # them after that unit; "passed over without a cycle" are none.
        if dots > 0:
            self.figure = Figure(self, kind, dots, passed)
            self.left = dots

    def figure_cycle(self):
        # "One step between consecutive dots, none after the last; it, or a
        # return to a row's start, is made in the earlier dot's unit, and the
        # figure ends in its last dot's unit."
        figure = self.figure
        if figure.kind == "character":
            bit = self.character_bit(figure)
        else:
            if figure.place == 0:
                # "... up to 16,383 steps in the unit that meets the next dot"
                self.arc_moves(figure, figure.passed)
            bit = self.pattern_bit(figure)
        # "... for all masked bits."
        self.memory_cycle(0xFFFF if bit else 0x0000)
        figure.place += 1
        self.left -= 1
        if figure.place == figure.dots:
            self.figure = None
        else:
            self.figure_step(figure)

    def figure_step(self, figure):
        if figure.kind == "character":
            self.character_step(figure)
            return
        if figure.kind == "line":
            direction = line_direction(figure)
        elif figure.kind == "rectangle":
            direction = side_direction(figure)
        elif figure.kind == "arc":
            direction = arc_direction(figure)
        else:
            direction = figure.direction
        self.ead, self.mask = step(self.ead, self.mask, direction, self.pitch)

    def pattern_bit(self, figure):
        # "In FIGD dot k uses bit k mod 16 of the pattern RA8 + 256·RA9";
        # dots are passed over "though the pattern advances".
        pattern = self.pram[8] + 256 * self.pram[9]
        return pattern >> ((figure.passed + figure.place) % 16) & 1

    def character_bit(self, figure):
        # "Row r, dot c uses bit (c div g) mod 8 of RA(15 - (r div g) mod 8)"
        r, c = row_and_dot(figure, figure.place)
        byte = self.pram[15 - (r // figure.factor) % 8]
        return byte >> ((c // figure.factor) % 8) & 1

    def character_step(self, figure):
        # "each row runs along DIR from its start; the next start is one step
        # along DIR + 2." The place is already the next dot's.
        r, c = row_and_dot(figure, figure.place)
        if c > 0:
            self.ead, self.mask = step(self.ead, self.mask, figure.direction, self.pitch)
            return
        ead, mask = figure.row_start
        next_row = (figure.direction + 2) % 8
        self.ead, self.mask = step(ead, mask, next_row, self.pitch)
        figure.row_start = (self.ead, self.mask)


def row_and_dot(figure, place):
    # "rows of D·g dots"
    return divmod(place, figure.d * figure.factor)


def line_direction(figure):
    # "D is two's complement. Negative: axis move, D gains D1; else diagonal
    # move, D gains D2; the 14-bit sum wraps."
    if figure.d >= 0x2000:
        figure.d = (figure.d + figure.d1) % 0x4000
        return axis(figure.direction)
    figure.d = (figure.d + figure.d2) % 0x4000
    return diagonal(figure.direction)


def arc_direction(figure):
    # "Before each i after the first, D gains D1 and D1 loses 2; if D is then
    # negative the move is diagonal, D gains D2 and D2 loses 2; otherwise it
    # is along the axis. Sums wrap at 14 bits; axis and diagonal are as for
    # lines."
    figure.arc_d = wrapped(figure.arc_d + figure.arc_d1)
    figure.arc_d1 = wrapped(figure.arc_d1 - 2)
    if figure.arc_d >= 0:
        return axis(figure.direction)
    figure.arc_d = wrapped(figure.arc_d + figure.arc_d2)
    figure.arc_d2 = wrapped(figure.arc_d2 - 2)
    return diagonal(figure.direction)


def signed(pattern):
    # "D is two's complement", and so are D2 and D1 here.
    return pattern - 0x4000 if pattern >= 0x2000 else pattern


def wrapped(number):
    # "Sums wrap at 14 bits": -8,192 to 8,191.
    return (number + 0x2000) % 0x4000 - 0x2000


def axis(direction):
    # "For even DIR the axis is DIR ...; for odd, the axis is DIR + 1 mod 8"
    if direction % 2 == 0:
        return direction
    return (direction + 1) % 8


def diagonal(direction):
    # "For even DIR ... the diagonal DIR + 1; for odd, ... the diagonal DIR."
    if direction % 2 == 0:
        return direction + 1
    return direction


def side_direction(figure):
    # "R: four sides along DIR, DIR + 2, + 4, + 6 (mod 8), of D, D2, D, D2
    # dots, a step after each dot except the last." The dot just done is the
    # one before the place.
    k = figure.place - 1
    if k < figure.d:
        side = 0
    elif k < figure.d + figure.d2:
        side = 1
    elif k < figure.d + figure.d2 + figure.d:
        side = 2
    else:
        side = 3
    return (figure.direction + 2 * side) % 8
