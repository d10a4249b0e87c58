"""The episodes of request M-100: arcs at the ports, circles on sheets."""

from basics import EDGE_NUMBERS
from building import number_bytes, record, with_check
from episodes import Episodes
from sheets import Sheets

EDGE_RADII = [0, 1, 255, 256, 1023, 1024, 2000, 2001, 2048, 0x8000, 0xFFFF]


class Curves(Episodes, Sheets):
    """One function for each kind of episode; generate.py has their weights."""

    circles = 0                  # the part of circles among a sheet's records

    # -- arcs

    def arc(self):
        self.emit("C", 0)
        if self.chance(0.6):
            self.set_position()
        if self.chance(0.3):
            self.set_mask()
        if self.chance(0.5):
            self.set_pitch()
        if self.chance(0.5):
            self.set_pattern()
        if self.chance(0.5):
            self.set_operation()
        dots = self.send_arc()
        for _ in range(self.pick([1, 1, 1, 2])):
            self.emit("C", 0x68 if self.chance(0.03) else 0x6C)
            if self.chance(0.15):
                self.cut_before_the_first_dot()
            self.cut_figure(dots)

    def send_arc(self):
        # FIGS of an arc; gives the number of its dots.
        dc = self.pick([0, 1, 2, 7, 15, 16, 17, self.below(60), self.below(60), self.below(60)])
        dm = self.pick([0, 0, 0, 1, 1, 2, self.below(dc + 1), self.below(20), dc, dc + 1, dc + 2])
        if self.chance(0.06):
            dc, dm = self.fourteen_bits(), self.fourteen_bits()
        first_byte = 0x20 | self.below(8)
        if self.chance(0.06):
            first_byte |= 8 << self.below(5)
        parameters = self.figs_parameters(first_byte, [dc, *self.arc_numbers(), dm % 0x4000])
        if self.chance(0.12):
            parameters = parameters[:self.below(11) + 1]
            dm = 0x3FFF
        self.send_and_run(0x4C, *parameters)
        return max(dc + 1 - dm, 0)

    def arc_numbers(self):
        # D, D2 and D1: a circle's, ones near 0, any.
        kind = self.below(6)
        if kind <= 2:
            r = self.below(80) + 1
            return [r - 1, 2 * (r - 1), 0x3FFF]
        if kind == 3:
            return [(self.below(41) - 20) % 0x4000 for _ in range(3)]
        if kind == 4:
            return [(self.pick(EDGE_NUMBERS) + self.below(9) - 4) % 0x4000 for _ in range(3)]
        return [self.fourteen_bits() for _ in range(3)]

    def cut_before_the_first_dot(self):
        self.emit("U", 1)
        self.emit(self.pick(["S", "D"]))
        self.emit("C", 0)
        self.emit("D")
        self.emit("C", 0x6C)

    # -- circles

    def random_record(self, left):
        if self.circles > 0 and left > 0 and self.chance(self.circles):
            most = self.largest_radius()
            if most > 0:
                return self.circle_record(most, left)
        return Sheets.random_record(self, left)

    def largest_radius(self):
        return (min(16 * self.words, self.height) - 1) // 2

    def circle_record(self, most, left):
        # A lawful circle, its dots and its entries; these count as dots too.
        r = self.pick([1, 2, 3, 7, self.below(most) + 1, self.below(30) + 1, most])
        while r > most or r > 1 and 6 * r > left + 1000:
            r = r // 2
        x, y = r + self.coordinate(16 * self.words - 2 * r), r + self.coordinate(self.height - 2 * r)
        return record(5, self.below(4), x, y, number_bytes(r) + [0, 0]), 6 * r + 161, 161

    def circle_sheet(self):
        self.with_circles(self.draw_circles)

    def with_circles(self, episode):
        # Circles among a sheet's records, in a picture and often a memory of
        # its own. Both are put back.
        length, words, height = self.length, self.words, self.height
        if length > 0x1000 or self.chance(0.5):
            self.new_memory(self.pick([0x10, 0x100, 0x400, 0x400, 0x1000]))
        across = self.below(min(8, self.length // 4)) + 1
        down = self.length // across
        self.set_picture(across, down if self.chance(0.4) else self.below(down - 2) + 3)
        self.circles = 0.5
        episode()
        self.circles = 0
        if self.length != length:
            self.new_memory(length)
        self.set_picture(words, height)

    def draw_circles(self):
        bodies, needed = self.random_blocks()
        self.emit_sheet(b"".join(with_check(body) for body in bodies))
        if self.chance(0.3):
            self.emit("T", self.pick([needed, needed, needed - 1, needed + 1, 0]))
        if self.chance(0.3):
            self.arc_in_progress()
        else:
            self.choose_start()
        self.emit("X")
        self.emit("D")
        self.emit("H")

    def arc_in_progress(self):
        # A small one, before its first dot or behind it, or one with none.
        self.emit("C", 0)
        dc, dm = self.below(40), self.pick([0, 1, self.below(50)])
        self.send_and_run(0x4C, *self.figs_parameters(0x20 | self.below(8), [dc, *self.arc_numbers(), dm]))
        self.emit("C", 0x6C)
        self.emit("U", self.pick([0, 1, 1, 2, self.below(40)]))

    def damaged_circles(self):
        self.with_circles(self.refuse_circles)

    def refuse_circles(self):
        bodies, needed = self.random_blocks()
        body = self.pick(bodies)
        for _ in range(self.pick([1, 1, 2])):
            start = 4 + 10 * self.below(body[2]) if body[2] > 0 else 4
            self.put(body, start, self.damaged_circle())
        self.emit_sheet(b"".join(with_check(body) for body in bodies))
        self.emit("T", self.pick([needed + 161, 0]))
        if self.chance(0.3):
            self.emit("C", 0)
            self.emit("X")
            self.emit("D")

    def damaged_circle(self):
        # A circle with up to three faults, or at the edge with none.
        width, height, most = 16 * self.words, self.height, self.largest_radius()
        r = self.pick([1, max(most, 1), self.below(max(most, 1)) + 1])
        x, y = self.pick([r, width - 1 - r, width // 2]), self.pick([r, height - 1 - r, height // 2])
        kind, operation, spare = 5, self.below(4), [0, 0]
        for _ in range(self.pick([1, 1, 1, 2, 3])):
            fault = self.below(8)
            if fault == 0:
                r = self.pick(EDGE_RADII + [most + 1])
            elif fault == 1:
                spare[self.below(2)] = self.byte()
            elif fault == 2:
                operation = self.pick([3, 4, 5, 255, self.byte()])
            elif fault == 3:
                kind = self.pick([0, 5, 6, 7, 255])
            elif fault <= 5:
                x = self.pick([r - 1, width - r, 0, width, 0xFFFF, self.below(0x10000)])
            else:
                y = self.pick([r - 1, height - r, 0, height, 0xFFFF, self.below(0x10000)])
        return record(kind, operation, max(x, 0), max(y, 0), number_bytes(r) + spare)
