"""The episodes that drive the controller, and the lines that are not of the language."""

from basics import (
    FIGURE_TYPES, LENGTHS, LENGTH_WEIGHTS, PLAIN_COMMANDS, RDAT_BYTES, SMALL_FIGURE, WDAT_BYTES, WIDE_CHARACTERS,
    Basics)
from building import number_bytes


class Episodes(Basics):
    """One function for each kind of episode; generate.py has their weights."""

    def loose(self):
        self.reset_at_times(0.4)
        for _ in range(self.below(20) + 3):
            kind = self.below(10)
            if kind <= 2:
                self.emit("C", self.pick([self.byte(), self.byte(), self.pick(PLAIN_COMMANDS),
                                          self.pick(WDAT_BYTES), self.pick(RDAT_BYTES),
                                          self.pick([0x6C, 0x68, 0xE0, 0xC0]), 0x70 + self.below(16)]))
            elif kind <= 5:
                self.emit("P", self.byte())
            elif kind == 6:
                self.emit("R")
            elif kind == 7:
                self.interlude()
            elif kind == 8:
                self.emit("U", self.small_budget())
            else:
                self.emit("W", self.below(self.length), self.below(0x10000))

    def figure(self):
        self.emit("C", 0)
        if self.chance(0.8):
            self.set_position()
        if self.chance(0.4):
            self.set_mask()
        if self.chance(0.5):
            self.set_pitch()
        if self.chance(0.6):
            self.set_pattern()
        if self.chance(0.6):
            self.set_operation()
        dots, start = self.choose_figure()
        self.emit("C", start)
        self.cut_figure(dots)

    def choose_figure(self):
        # FIGS and, for characters, ZOOM; gives the number of dots and the
        # byte that starts the figure.
        kind = self.pick(FIGURE_TYPES) if self.chance(0.75) else self.below(32)
        first_byte = kind << 3 | self.below(8)
        huge = self.chance(0.08)
        dc, d, d2 = self.below(40), self.below(40), self.below(40)
        if self.chance(0.25):
            dc, d, d2 = [self.pick([0, 0, 1, 2, 3, 15, 16, 17]) for _ in range(3)]
        if huge:
            dc, d, d2 = self.fourteen_bits(), self.fourteen_bits(), self.fourteen_bits()
        d1, dm = self.fourteen_bits(), self.fourteen_bits()
        factor = self.pick([1, 1, 1, 2, 2, 3, 16, self.below(16) + 1, self.below(16) + 1])
        if kind == 0b00001:
            d, d2 = self.fourteen_bits(), self.fourteen_bits()
            if self.chance(0.5):
                d1, d2 = self.below(200), 0x4000 - self.below(200) - 1
        if kind == 0b00010:
            if not huge:
                dc, d = self.below(12), self.below(12)
            if not huge and factor > 4:
                dc, d = self.below(2), self.below(3)
            self.send_and_run(0x46, self.below(16) << 4 | factor - 1)
        self.send_and_run(0x4C, *self.figs_parameters(first_byte, [dc, d, d2, d1, dm]))
        dots = {0b01000: 2 * d + 2 * d2, 0b00010: (dc + 1) * factor * d * factor}.get(kind, dc + 1)
        start = 0x68 if kind == 0b00010 else 0x6C
        if self.chance(0.04 if kind in FIGURE_TYPES else 0.5):
            start = 0x68 + 0x6C - start
        return dots, start

    def wide(self):
        # Small runs are enough to tell a narrower product: the figure of few
        # dots that it would be ends in them.
        self.emit("C", 0)
        self.set_position()
        if self.chance(0.5):
            self.set_pitch()
        if self.chance(0.7):
            self.send_and_run(0x78, *[self.byte() for _ in range(8)])
        if self.chance(0.6):
            self.set_operation()
        zoom, dc, d = self.pick(WIDE_CHARACTERS)
        self.send_and_run(0x46, self.below(16) << 4 | zoom)
        self.send_and_run(0x4C, 0x10 | self.below(8), *number_bytes(dc), *number_bytes(d))
        self.emit("C", 0x68)
        for _ in range(self.below(3) + 2):
            self.emit("U", self.pick([1, 16, 17, 33, 65, 129, 257, self.below(400)]))
            self.interlude()
        self.look()
        self.emit("C", 0)

    def cut_figure(self, dots):
        # Small runs with the ports used between them, then an end.
        for _ in range(self.below(5)):
            self.emit("U", self.pick([0, 1, 2, 3, self.below(20), self.below(60)]))
            for _ in range(self.below(3)):
                if self.chance(0.3):
                    self.emit("C", self.pick([self.byte(), self.pick(PLAIN_COMMANDS), 0xE0, 0x6B]))
                elif self.chance(0.3):
                    self.emit("P", self.byte())
                else:
                    self.interlude()
            if self.chance(0.2):
                self.emit("W", self.below(self.length), self.below(0x10000))
        if self.chance(0.15):
            self.emit("C", 0)
        elif dots <= SMALL_FIGURE and self.chance(0.8):
            self.emit("U", self.pick([dots + 1, dots, dots + 2, 0x400]))
        else:
            self.emit("U", self.below(300))

    def write(self):
        if self.chance(0.6):
            self.set_sync()
        else:
            self.reset_at_times()
        if self.chance(0.5):
            self.set_position()
        if self.chance(0.7):
            self.set_mask()
        if self.chance(0.4):
            self.set_pitch()
        if self.chance(0.6):
            self.pick([self.set_gd, self.set_direction])()
        for _ in range(self.below(3) + 1):
            byte = self.pick(WDAT_BYTES)
            if self.chance(0.1):
                byte = 0x20 + self.below(32)
            self.send_loosely(byte, *[self.byte() for _ in range(self.below(7))])
            self.emit("U", self.below(20))
            if self.chance(0.3):
                self.send(self.pick([self.pick(PLAIN_COMMANDS), 0x24, 0x28, 0xA8, 0xA4, 0x41]), self.byte())
            if self.chance(0.1):
                self.pick([self.set_sync, self.set_gd])()
        self.emit("U", 20)

    def sets(self):
        # Whole sets of all types; before each few of them RESET with other
        # sync bytes, and often FIGS with a GD.
        for _ in range(self.below(3) + 1):
            self.set_sync()
            if self.chance(0.6):
                self.set_gd()
            if self.chance(0.5):
                self.set_position()
            if self.chance(0.7):
                self.set_mask()
            if self.chance(0.3):
                self.set_pitch()
            for _ in range(self.below(3) + 1):
                self.send_and_run(self.pick(WDAT_BYTES), *[self.byte() for _ in range(self.pick([2, 2, 4, 6]))])
            self.look_at_words()

    def read(self):
        settled = self.chance(0.8)
        if settled:
            self.emit("C", 0)
        for _ in range(self.below(4)):
            self.emit("W", self.below(self.length), self.below(0x10000))
        if self.chance(0.6):
            self.set_position()
        if self.chance(0.3):
            self.set_pitch()
        items = self.pick([0, 1, 2, 7, 8, 9, 15, 16, 17, 18, self.below(40), self.fourteen_bits()])
        self.send_and_run(0x4C, self.below(8), *number_bytes(items))
        self.emit("C", self.pick(RDAT_BYTES))
        for _ in range(self.below(3)):
            self.emit("P", self.byte())
        for _ in range(self.below(5) + 1):
            self.emit("U", self.pick([1, 2, 3, 20, self.below(30), 0xFFFFFFFF if settled else 40]))
            for _ in range(self.pick([0, 1, 1, 2, 2, 3, 5, 17])):
                self.emit("R")
            if self.chance(0.3):
                self.emit(self.pick(["S", "D", "P 1"]))
        if self.chance(0.4):
            self.emit("C", self.pick([0, 0x6B, 0xE0, self.byte()]))
            self.emit("D")
            self.emit("U", self.below(10))

    def answers(self):
        self.reset_at_times(0.7)
        if self.chance(0.5):
            self.set_position()
        for _ in range(self.below(3)):
            self.emit("L", self.pen_address())
        self.emit("C", self.pick([0xE0, 0xC0]))
        for _ in range(self.below(4)):
            self.emit(self.pick(["P", "C"]), self.byte())
        self.emit("U", self.pick([1, 5, 0]))
        for _ in range(self.below(7)):
            self.emit(self.pick(["R", "R", "R", "S"]))
        if self.chance(0.3):
            self.emit("P", self.byte())
        if self.chance(0.3):
            self.emit("L", self.pen_address())
        if self.chance(0.5):
            self.emit("C", self.pick([0x6B, 0xC0, 0xE0, self.byte()]))
            self.emit("U", self.below(4))

    def partial(self):
        self.reset_at_times(0.7)
        for _ in range(self.below(3) + 1):
            byte = self.pick(PLAIN_COMMANDS + [0x70 + self.below(16), 0x4C, 0x49, self.byte()])
            if byte == 0:
                byte = 0x4C
            most = {0x4C: 13, 0x4B: 5, 0x49: 5, 0x4A: 4}.get(byte, 4)
            if 0x70 <= byte <= 0x7F:
                most = 18 - byte % 16
            self.send_loosely(byte, *[self.byte() for _ in range(self.below(most + 1))])
            self.emit("U", self.below(30))
        if self.chance(0.2):
            self.emit("C", 0)
            for _ in range(self.below(11)):
                self.emit("P", self.byte())
            self.emit("U", self.below(15))
        self.emit("D")

    def flood(self):
        self.reset_at_times(0.5)
        for _ in range(self.below(8) + 12):
            if self.chance(0.25):
                self.emit("C", self.pick(PLAIN_COMMANDS + [self.byte(), self.pick(WDAT_BYTES)]))
            else:
                self.emit("P", self.byte())
        self.emit("S")
        if self.chance(0.4):
            self.emit("C", 0)
            for _ in range(self.below(12)):
                self.emit("P", self.byte())
        self.emit("U", self.below(24))
        self.emit("D")

    def memory(self):
        if self.chance(0.1):
            self.emit("M", self.pick([0, 1, 8, 15, 17, 24, 0x3FFFF, 0x40001, 0x80000, 0xFFFFFFFF]))
            return
        self.new_memory(self.random.choices(LENGTHS, LENGTH_WEIGHTS)[0])
        for _ in range(self.below(6)):
            self.emit("W", self.below(self.length), self.below(0x10000))

    def new_memory(self, length):
        self.length = length
        self.emit("M", length)

    def malformed(self):
        self.emit(self.pick([
            "", " ", "c 1", "C", "C 100", "C 1 1", "C  1", "C 1 ", " C 1", "C ff", "C 0X1", "C -1", "C +1", "C 1_0",
            "P", "P 100", "P a", "P 0 0", "R 1", "R ", "S 0", "L", "L 100000000", "L 1 1", "U", "U 100000000",
            "U 1 1", "U G", "D 0", "H 0", "V", "V 0", "V 0 0 0", "W", "W 0", "W 0 10000", "W 0 0 0", "M", "M X",
            "Q", "Q 1", "Q 1 1 1", "Q 100000000 1", "Q 1 100000000", "G 1", "G 0g", "G 00 00", "G 123", "Z 1",
            "B 1", "B 00 00", "B ZZ", "B aa", "T", "T 1 1", "T 100000000", "X 0", "Y", "?", "CC 1", "A 1", "0",
            "V %X 0" % self.length, "V 0 %X" % (self.length + 1), "V %X 2" % (self.length - 1),
            "W %X 0" % self.length]))
        if self.chance(0.3):
            self.emit("D")
