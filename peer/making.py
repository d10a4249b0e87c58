"""What tools/peer sends: random drawing sheets, and random commands outside what the translator of sheets sends."""

from building import block_body, number_bytes, record, with_check

RUN = 'U FFFFFFFF'              # a run until idle
LENGTH = 0x10000                # words of memory that MAME's machine `dmv` has
MOST_FIGURES = 100              # in a sheet: two blocks


def step_lines(step):
    """A step (peer/cases.txt says its form) as lines of the bench's language."""
    words = step.split()
    if words[0] == 'R':
        return ['R'] * int(words[1], 16)
    if words[0] == 'CURD':
        return ['C E0', RUN] + ['R'] * 5
    if len(words[0]) == 1:
        return [step]
    return [line for word, byte in zip(['C'] + ['P'] * len(words), words) for line in (f'{word} {byte}', RUN)]


def memory(chances):
    """A memory with words all over it."""
    return [f'M {LENGTH:X}'] + [f'W {chances.randrange(LENGTH):X} {chances.randrange(0x10000):X}' for _ in range(2000)]


def our_moves(d, d2, d1):
    """Whether each move of an arc is diagonal, by the words of M-100; D stays within 14 bits where this is used."""
    while True:
        d, d1 = d + d1, d1 - 2
        slanted = d < 0
        if slanted:
            d, d2 = d + d2, d2 - 2
        yield slanted


def their_moves(d):
    """Whether each move of an arc in MAME is diagonal, as found by trying (docs/PEER.md). D1 and D2 have no part."""
    error, along, out = -d, 0, d + 1
    while True:
        along += 1
        slanted = error >= 0
        out -= slanted
        error += 2 * (along - out) if slanted else 2 * along
        yield slanted


class Sheet:
    """A plane that fits the memory, glyphs, and figures anywhere on it."""

    def __init__(self, chances):
        self.below = chances.randrange
        self.words = chances.choice([1 + self.below(8), 1 + self.below(60), 1 + self.below(255)])
        most = min(4096, LENGTH // self.words)
        self.height = chances.choice([most, 1 + self.below(most)])
        self.width = 16 * self.words
        self.glyphs = bytes(self.below(256) for _ in range(8 * (1 + self.below(20))))
        self.figures = [self.figure() for _ in range(1 + self.below(MOST_FIGURES))]
        self.memory = memory(chances)

    def figure(self):
        kind, operation = 1 + self.below(4), self.below(4)
        largest = min(self.width, self.height, 128) // 8
        if kind == 4 and largest:
            factor = 1 + self.below(largest)
            x, y = self.below(self.width - 8 * factor + 1), self.below(self.height - 8 * factor + 1)
            return record(4, operation, x, y, [self.below(len(self.glyphs) // 8), factor, 0, 0])
        x, y = self.below(self.width), self.below(self.height)
        if kind in (1, 4):
            return record(1, operation, x, y, [0, 0, 0, 0])
        reach = (1, 10, 100, 4096)[self.below(4)]
        x1, y1 = self.near(x, reach, self.width), self.near(y, reach, self.height)
        return record(kind, operation, x, y, number_bytes(x1) + number_bytes(y1))

    def near(self, place, reach, limit):
        return max(0, min(limit - 1, place + self.below(2 * reach + 1) - reach))

    def bytes(self):
        parts = [self.figures[first:first + 50] for first in range(0, len(self.figures), 50)]
        bodies = [block_body(number, len(part), int(number == len(parts) - 1), part) for number, part in enumerate(parts)]
        return b''.join(with_check(body) for body in bodies)

    def ours(self):
        """For `bench`: the sheet translated, then drawn, then every word."""
        paper = [f'Q {self.words:X} {self.height:X}', 'G ' + self.glyphs.hex().upper(), 'Z', 'B ' + self.bytes().hex().upper()]
        return self.memory + paper + ['T FFFFFFFF', 'X', f'V 0 {LENGTH:X}']

    def theirs(self, translated):
        """For MAME: the entries that our translator made, each with a wait until the controller is idle, then every word."""
        lines = list(self.memory)
        for entry in translated.split()[4:]:
            lines += ['C ' + entry[2:] if entry[1] == '1' else 'P ' + entry[2:], RUN]
        return lines + [f'V 0 {LENGTH:X}']


class Sequence:
    """One to three figures, writes or reads with any masks, patterns, places and directions, short of the differences in docs/PEER.md.

    So the pattern and all of FIGS are sent before each, rectangles are solid with two sides of dots and DC 3, a line's D stays within
    14 bits, arcs are a circle's, end before the two part and are solid past 15 dots, characters are 8, 16 or 24 dots wide, REPLACE meets
    no bit twice in a row of one, WDAT has DC 0, its REPLACE whole words and the mask FFFF, and the cursor is read after no figure.
    """

    def __init__(self, chances):
        self.below, self.pick = chances.randrange, chances.choice
        self.lines = memory(chances)
        self.send(0x47, self.pick([1, 2, 40, 255, 1 + self.below(255)]))
        for _ in range(1 + self.below(3)):
            self.others()
            address = self.pick([0, 0xFFFF, 0x10000, 0x3FFFF, self.below(0x40000), self.below(0x40000)])
            self.send(0x49, address & 255, address >> 8 & 255, self.below(64) << 2 | address >> 16)
            self.direction, self.operation = self.below(8), self.below(4)
            self.pick([self.write, self.read, self.dots, self.line, self.rectangle, self.arc, self.character])()
        self.lines.append(f'V 0 {LENGTH:X}')

    def others(self):
        """Commands that neither draw nor write: RESET alone, VSYNC, CCHAR, START, CURS cut short, PRAM anywhere, bytes without meaning."""
        for _ in range(self.below(4)):
            command = self.pick([0x00, 0x6E, 0x6F, 0x4B, 0x6B, 0x49, 0x70 + self.below(16), 0x70 + self.below(16), 0x48, 0x6A, 0xFF])
            count = {0x00: 0, 0x49: 2}.get(command, self.below(20))
            self.send(command, *[self.below(256) for _ in range(count)])

    def send(self, *sent):
        self.lines += step_lines(' '.join(f'{byte:02X}' for byte in sent))

    def mask(self, value):
        self.send(0x4A, value & 255, value >> 8)

    def any_mask(self):
        self.mask(self.pick([0, 0xFFFF, 0x8001, 0x00FF, self.below(0x10000)]))

    def figs(self, kind, *numbers):
        self.send(0x4C, kind | self.direction, *[byte for number in numbers for byte in (number & 255, number >> 8 & 63)])

    def pattern(self, count=2):
        """The operation, and the bytes of a pattern."""
        self.send(0x20 + 8 * self.pick([0, 2, 3]) + self.operation)
        self.send(0x78, *[self.below(256) for _ in range(count)])

    def write(self):
        kind = self.pick([0, 2, 3]) if self.operation else 0
        self.mask(self.below(0x10000) if self.operation else 0xFFFF)
        self.figs(0, 0)
        self.send(0x20 + 8 * kind + self.operation, *[self.below(256) for _ in range((1 + self.below(4)) * (1 if kind else 2))])

    def read(self):
        kind, count = self.pick([0, 2, 3]), 1 + self.below(8)
        self.any_mask()
        self.figs(0, count)
        self.send(0xA0 + 8 * kind)
        self.lines += ['R'] * (count if kind else 2 * count) + step_lines('CURD')

    def dots(self):
        self.any_mask()
        self.pattern()
        self.figs(0, self.pick([0, 1, self.below(100), self.below(0x4000)]))
        self.send(0x6C)

    def line(self):
        if self.below(2):
            self.any_mask()
        self.pattern()
        self.figs(8, self.below(60), self.below(4000) - 2000, self.below(200) - 100, self.below(200) - 100)
        self.send(0x6C)

    def rectangle(self):
        if self.below(2):
            self.any_mask()
        self.pattern()
        self.send(0x78, 0xFF, 0xFF)
        self.figs(0x40, 3, 1 + self.below(300), 1 + self.below(300), -1, self.below(0x4000))
        self.send(0x6C)

    def arc(self):
        if self.below(2):
            self.any_mask()
        self.pattern()
        radius = 1 + self.below(self.pick([10, 100, 2000]))
        numbers = radius - 1, 2 * (radius - 1), -1
        moves = zip(our_moves(*numbers), their_moves(radius - 1), range(radius))
        alike = next((along for ours, theirs, along in moves if ours != theirs), radius)
        dc = self.below(alike + 1)
        if dc > 14:
            self.send(0x78, 0xFF, 0xFF)
        self.figs(0x20, dc, *numbers, self.pick([0, 0, 1, self.below(dc + 3)]))
        self.send(0x6C)

    def character(self):
        if self.operation:
            self.any_mask()
        self.send(0x46, self.pick([self.below(4), self.below(256)]))
        self.pattern(8)
        self.figs(0x10, self.below(20), self.pick([8, 16, 24]))
        self.send(0x68)
