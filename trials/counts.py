"""The episodes of request M-103: the cycles left asked after units, counts put, true and false."""

from basics import RDAT_BYTES, WIDE_CHARACTERS
from building import block_body, number_bytes, record, with_check
from wirings import Wirings


class Counts(Wirings):
    """One function for each kind of episode; generate.py has their weights."""

    # -- the count asked

    def cycles_left(self):
        # What other episodes do, with F 103 after many of their lines.
        for _ in range(self.below(2) + 1):
            first = len(self.lines)
            getattr(self, self.pick(["figure", "figure", "figure", "arc", "arc", "wide", "write", "read", "loose", "answers"]))()
            self.ask_between(first)

    def ask_between(self, first):
        # After runs and RESET mostly, after other lines now and then.
        lines = self.lines[first:]
        del self.lines[first:]
        for line in lines:
            self.lines.append(line)
            if self.chance(0.8 if line[0] == "U" or line == "C 0" else 0.1):
                self.lines.append("F 103")

    # -- counts put

    def false_count(self):
        # A state, counts put in it with entries between them, the right one
        # at last. M makes the set anew whatever came of it.
        self.emit("C", 0)
        self.set_position()
        right = self.pick([self.drawing, self.drawing, self.drawing, self.widely, self.waiting, self.reading, self.a_sheet])()
        for _ in range(self.below(3) + 1):
            self.emit("J 103 %X" % self.wrong_count(right))
            for _ in range(self.below(4) + 1):
                self.try_an_entry()
        if self.chance(0.3):
            self.emit(self.pick(["M 18", "O F", "J 108 0", "J 108 1", "J 103 100000000", "F 103", "D"]))
        self.put_right(right)
        self.new_memory(self.length)

    def put_right(self, right):
        if right <= 0xFFFFFFFF:
            self.emit("J 103 %X" % right)
        for _ in range(self.below(3)):
            self.emit("F 103")
            self.emit(self.pick(["S", "U 1", "U 3", "R", "P 1", "C 0"]))
        self.emit("F 103")
        self.look()

    def wrong_count(self, right):
        # Mostly not the right one, and often a near one.
        count = self.pick([right + 1, right + 1, right - 1, right - 1, 0, 1, 0xFFFFFFFF, right + 0x10000, 2 * right, right // 2,
                           self.below(100), right, right % 2 ** 32])
        return min(max(count, 0), 0xFFFFFFFF)

    def try_an_entry(self):
        # Few units: a right count may stand, and then they are done.
        kind = self.below(12)
        if kind <= 2:
            self.emit("C", self.pick([0, 0, 0x6B, 0x6C, 0xE0, self.byte()]))
        elif kind == 3:
            self.emit("P", self.byte())
        elif kind == 4:
            self.emit("R")
        elif kind == 5:
            self.emit("L", self.pen_address())
        elif kind <= 7:
            self.emit("S")
        elif kind <= 9:
            self.emit("U", self.pick([0, 1, 2, self.below(20)]))
        else:
            self.emit(self.pick(["F 103", "D", "J 108 0", "M 18", "V 0 4"]))

    # -- the states: each gives the right count in it

    def drawing(self):
        # A small figure, some of its cycles done; ZOOM's factor stays 1.
        self.send_and_run(0x46, 0)
        kind = self.pick([0b00000, 0b00001, 0b01000, 0b00100, 0b00010])
        dc, d, d2, dm = self.below(30), self.below(12) + 1, self.below(12), self.below(10)
        if kind == 0b00010:
            dc = self.below(6)
        self.send_and_run(0x4C, kind << 3 | self.below(8), *[byte for number in (dc, d, d2, self.below(0x4000), dm)
                                                           for byte in number_bytes(number)])
        cycles = {0b01000: 2 * d + 2 * d2, 0b00100: max(0, dc + 1 - dm), 0b00010: (dc + 1) * d}.get(kind, dc + 1)
        done = self.pick([0, 0, 1, self.below(cycles + 1), max(cycles - 1, 0)])
        self.emit("C", 0x68 if kind == 0b00010 else 0x6C)
        self.emit("U", min(done, cycles) + 1)
        return max(cycles - done, 0)

    def widely(self):
        zoom, dc, d = self.pick(WIDE_CHARACTERS)
        self.send_and_run(0x46, self.below(16) << 4 | zoom)
        self.send_and_run(0x4C, 0x10 | self.below(8), *number_bytes(dc), *number_bytes(d))
        self.emit("C", 0x68)
        done = self.pick([0, 1, 64, self.below(300)])
        self.emit("U", done + 1)
        return (dc + 1) * (zoom + 1) * d * (zoom + 1) - done

    def waiting(self):
        # Entries that wait, FIGD perhaps among them; often a full buffer.
        for _ in range(self.pick([1, 2, 16, 17])):
            self.emit(*self.pick([("P", self.byte()), ("P", self.byte()), ("C", 0x6C), ("C", self.byte() | 1)]))
        return 0

    def reading(self):
        self.send_and_run(0x4C, self.below(8), *number_bytes(self.below(20)))
        self.emit("C", self.pick(RDAT_BYTES + [0xE0, 0xC0]))
        self.emit("U", self.pick([1, 3, 30]))
        return 0

    def a_sheet(self):
        # X, mostly into a false count: from idle, or in a small figure. The
        # sheet may be one that is refused. The picture is put back.
        words, height = self.words, self.height
        self.set_picture(1, 16)
        self.emit_sheet(with_check(block_body(0, 2, 1, [
            record(self.pick([1, 1, 9]), self.below(4), self.below(17), 3, [0, 0, 0, 0]),
            record(2, self.below(4), 0, 1, [self.below(16), 0, self.below(16), 0])])))
        right = self.drawing() if self.chance(0.5) else 0
        count = self.pick([right, right + 1, max(right - 1, 0), 0, 1])
        self.emit("J 103 %X" % count)
        self.emit("X")
        self.emit("F 103")
        self.set_picture(words, height)
        return 0 if count == right else right
