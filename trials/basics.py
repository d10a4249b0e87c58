"""The generator's small helpers, and the numbers at the edges that it likes."""

LENGTHS = [2 ** power for power in range(4, 19)]
LENGTH_WEIGHTS = [12, 6, 6, 6, 12, 8, 20, 8, 8, 5, 5, 4, 4, 4, 6]

PLAIN_COMMANDS = [0x6E, 0x6F, 0x4B, 0x6B, 0x46, 0x49, 0x47, 0x4A, 0x4C]
FIGURE_TYPES = [0b00000, 0b00001, 0b01000, 0b00010]
WDAT_BYTES = [0x20 + 8 * kind + operation for kind in (0, 2, 3) for operation in range(4)]
RDAT_BYTES = [0xA0, 0xB0, 0xB8]
EDGE_NUMBERS = [0, 1, 2, 7, 8, 15, 16, 17, 0x1FFE, 0x1FFF, 0x2000, 0x2001, 0x3FFE, 0x3FFF]
EDGE_MASKS = [0x0000, 0xFFFF, 0x8001, 0x8000, 0x0001, 0xAAAA, 0x5555, 0x00FF, 0xFF00, 0x7FFE]
EDGE_EADS = [0, 1, 0x3FFFF, 0x3FFFE, 0x10000, 0x0FFFF, 0x20000, 0x0FF, 0x100]

LARGEST_PICTURES = [(64, 4096), (255, 1028), (128, 2048), (65, 4032), (254, 1032)]
SIZES_AT_THE_EDGE = LARGEST_PICTURES + [
    (64, 4097), (65, 4096), (255, 1029), (256, 1), (128, 2049), (0, 1), (1, 0), (1, 4096), (1, 4097),
    (255, 1), (256, 256), (0x10000, 0x10000), (0xFFFFFFFF, 0xFFFFFFFF), (1, 0x10001), (0x10001, 1),
    (0x101, 1), (1, 0x1001), (255, 4096), (0, 0), (1, 1), (63, 4096), (64, 4095)]

# ZOOM's nibble, DC and D of characters of 2^32 dots and of few more, and of
# ones whose rows, or whose dots in a row, are few past a multiple of 65,536.
WIDE_CHARACTERS = [
    (15, 0x0FFF, 0x1000), (7, 8064, 8321), (7, 5521, 12153), (6, 6003, 14599), (4, 11857, 14488), (13, 1810, 12100),
    (15, 0, 0x1000), (15, 0, 0x1001), (15, 3, 0x2001), (12, 0, 5042), (9, 2, 6554), (4, 1, 13108), (14, 0, 8739),
    (15, 0x0FFF, 1), (15, 0x1000, 1), (15, 0x2001, 2), (9, 6554, 1), (4, 13108, 1), (15, 0x3FFF, 0x3FFF)]

DOTS_OF_A_SHEET = 2500      # about this many dots in a random drawn sheet
SMALL_FIGURE = 700          # a figure of at most so many dots may be finished


class Basics:
    """Lines, chances and the registers that an episode sets first."""

    def __init__(self, chances=None):
        self.random = chances        # those of the episode at hand
        self.lines = []
        self.length = 16             # of the memory, as the last M left it
        self.words, self.height = 0x28, 0x190
        self.glyphs = 0              # glyphs in the table

    # -- small helpers

    def emit(self, line, *numbers):
        self.lines.append(" ".join([line] + ["%X" % number for number in numbers]))

    def chance(self, part):
        return self.random.random() < part

    def below(self, limit):
        return self.random.randrange(limit)

    def pick(self, values):
        return values[self.random.randrange(len(values))]

    def byte(self):
        return self.below(256)

    def send(self, byte, *parameters):
        self.emit("C", byte)
        for parameter in parameters:
            self.emit("P", parameter)

    def send_and_run(self, byte, *parameters):
        # With enough units that nothing is left in the buffer.
        self.send(byte, *parameters)
        self.emit("U", len(parameters) + 1 + self.below(4))

    def send_loosely(self, byte, *parameters):
        # Runs and looks may come anywhere between the bytes.
        self.emit("C", byte)
        for parameter in parameters:
            if self.chance(0.15):
                self.interlude()
            self.emit("P", parameter)
        if self.chance(0.5):
            self.emit("U", self.below(24))

    def interlude(self):
        kind = self.below(8)
        if kind <= 3:
            self.emit("U", self.small_budget())
        elif kind == 4:
            self.emit("S")
        elif kind == 5:
            self.emit("R")
        elif kind == 6:
            self.emit("D")
        else:
            self.emit("L", self.pen_address())

    def small_budget(self):
        return self.pick([0, 1, 1, 2, 3, 5, 8, 13, 16, 17, self.below(40), self.below(100)])

    def pen_address(self):
        return self.pick([0, 0x3FFFF, 0x40000, 0xFFFFFFFF, self.below(0x40000),
                          self.below(0x40000), self.below(0x50000)])

    def look(self):
        # So that a difference is seen soon.
        if self.chance(0.7):
            self.emit("D")
        if self.chance(0.3):
            self.emit("S")
        if self.length <= 1024 and self.chance(0.7) or self.chance(0.03):
            self.emit("H")
        elif self.chance(0.4):
            self.look_at_words()

    def look_at_words(self):
        start = self.below(self.length)
        self.emit("V", start, self.below(min(20, self.length - start) + 1))

    def reset_at_times(self, part=0.6):
        # RESET is the sure way out of anything.
        if self.chance(part):
            self.emit("C", 0)

    # -- registers

    def set_position(self):
        ead = self.pick(EDGE_EADS) if self.chance(0.3) else self.below(0x40000)
        if self.chance(0.4):
            ead = self.below(self.length)
        self.send_and_run(0x49, ead & 0xFF, ead >> 8 & 0xFF, self.below(16) << 4 | self.below(4) << 2 | ead >> 16)

    def set_mask(self):
        mask = self.pick(EDGE_MASKS) if self.chance(0.6) else self.below(0x10000)
        self.send_and_run(0x4A, mask & 0xFF, mask >> 8)

    def set_pitch(self):
        self.send_and_run(0x47, self.pick([0, 1, 2, 40, 128, 255, self.byte()]))

    def set_pattern(self):
        address = self.pick([8, 8, 8, 0, 15, self.below(16)])
        self.send_and_run(0x70 + address, *[self.pick([0xFF, 0x00, self.byte(), self.byte()])
                                           for _ in range(self.below(9) + 1)])

    def set_sync(self):
        # Sync byte 1 with any C and G, its other bits and the other bytes any.
        first = self.pick([0x00, 0x00, 0x02, 0x02, 0x20, 0x22]) | self.pick([0, self.byte() & 0xDD])
        self.send_and_run(0x00, first, *[self.byte() for _ in range(self.pick([0, 0, 1, 7, 8]))])

    def set_direction(self):
        self.send_and_run(0x4C, self.byte())

    def set_gd(self):
        # FIGS with DC, and GD in its high byte; then at times FIGS without.
        self.send_and_run(0x4C, self.byte(), self.byte(), self.byte() & 0xBF | self.pick([0, 0x40, 0x40]))
        if self.chance(0.4):
            self.send_and_run(0x4C, *[self.byte() for _ in range(self.below(3))])

    def set_operation(self):
        # WDAT's command byte; the type does not matter to figures.
        self.send_and_run(self.pick(WDAT_BYTES))

    def fourteen_bits(self):
        if self.chance(0.3):
            return self.pick(EDGE_NUMBERS)
        return self.below(0x4000)

    def figs_parameters(self, first_byte, numbers):
        parameters = [first_byte]
        for number in numbers:
            parameters += [number & 0xFF, number >> 8 | (self.below(4) << 6 if self.chance(0.2) else 0)]
        return parameters
