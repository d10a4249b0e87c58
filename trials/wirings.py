"""The episodes of request M-108: open wiring, odd lengths, the wiring put in the midst of work."""

from basics import LENGTHS
from building import with_check
from curves import Curves

EDGE_LENGTHS = [16, 17, 24, 31, 32, 33, 0x6000, 0x6000, 0x3FFFF, 0x40000]
UNLAWFUL_LENGTHS = [0, 1, 15, 0x40001, 0x60000, 0xFFFFFFFF]


class Wirings(Curves):
    """One function for each kind of episode; generate.py has their weights."""

    about_the_end = False        # whether positions lie about the memory's end

    def open_memory(self, length):
        self.length = length
        self.emit("O", length)

    def odd_length(self):
        if self.chance(0.3):
            return self.pick(LENGTHS[:7])
        return self.pick(EDGE_LENGTHS + [self.below(100) + 16, self.below(100) + 16, self.below(1000) + 16, self.below(0x3FFF0) + 16])

    # -- at the ports

    def odd_board(self):
        # What other episodes do, under open wiring and about the end of the
        # memory. The memory's length is put back, and the wiring with it.
        length = self.length
        self.about_the_end = True
        self.open_memory(self.odd_length())
        for _ in range(self.below(3)):
            self.emit("W", self.length - 1 - self.below(10), self.below(0x10000))
        for _ in range(self.below(3) + 1):
            first = len(self.lines)
            getattr(self, self.pick(["figure", "figure", "arc", "write", "sets", "sets", "read", "read", "loose"]))()
            self.put_wirings(first)
            self.look_at_the_end()
            self.refuse_at_times()
        self.about_the_end = False
        self.new_memory(length)

    def set_position(self):
        if not self.about_the_end or self.chance(0.2):
            Curves.set_position(self)
            return
        reach = self.pick([2, 2, 20, 300])
        ead = (self.pick([self.length, self.length, 0]) + self.below(2 * reach) - reach) % 0x40000
        self.send_and_run(0x49, ead & 0xFF, ead >> 8 & 0xFF, self.below(16) << 4 | ead >> 16)

    def put_wirings(self, first):
        # J 108 among the lines from `first` on. A length that folded wiring
        # does not take has its runs refused until the wiring is open again.
        place = first + self.below(len(self.lines) - first + 1)
        if self.length in LENGTHS:
            for _ in range(self.below(5)):
                self.lines.insert(place, "J 108 %d" % self.below(2))
                place = min(place + self.below(6) + 1, len(self.lines))
        elif self.chance(0.4):
            self.lines.insert(place, "J 108 0")
            self.lines.insert(min(place + self.below(10) + 2, len(self.lines)), "J 108 1")

    def look_at_the_end(self):
        start = self.length - 1 - self.below(12)
        self.emit("V", start, self.length - start)
        self.emit(self.pick(["D", "D", "F 108", "S"]))
        if self.length <= 1024:
            self.emit("H")

    def refuse_at_times(self):
        if self.chance(0.1):
            self.emit(self.pick(["O", "M"]), self.pick(UNLAWFUL_LENGTHS))
        if self.chance(0.1):
            self.emit(self.pick(["F", "F 107", "F 108 1", "F 1080", "J 108", "J 108 2", "J 108 0 1", "J 104 1", "J 0", "O",
                                 "O G", "O 10 0", "O 100000000"]))

    # -- sheets

    def odd_sheet(self):
        # A sheet on a board with as many words as the picture has, or some
        # more or less. Length and picture are put back.
        length, words, height = self.length, self.words, self.height
        self.set_picture(self.below(8) + 1, self.pick([self.below(12) + 3, self.below(60) + 1, self.below(200) + 3]))
        lacking = self.pick([0, 0, 0, 1, -1, self.below(20), -self.below(20), self.below(self.words * self.height)])
        self.open_memory(max(16, self.words * self.height - lacking))
        for _ in range(self.below(4)):
            self.emit("W", self.length - 1 - self.below(10), self.below(0x10000))
        self.circles = 0.3
        bodies, needed = self.random_blocks()
        self.circles = 0
        self.emit_sheet(b"".join(with_check(body) for body in bodies))
        self.choose_start()
        if self.chance(0.3):
            self.draw_folded()
        else:
            self.emit("X")
        self.emit("D")
        self.emit("H")
        self.new_memory(length)
        self.set_picture(words, height)

    def draw_folded(self):
        # Mostly a length that folded wiring refuses: the entries wait.
        self.emit("J 108 0")
        self.emit("X")
        self.emit(self.pick(["D", "S", "H"]))
        self.emit("J 108 1")
        self.emit("U", self.pick([1, 13, 40, 200]))
