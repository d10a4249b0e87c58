"""Circles and arcs for tools/peer: what is sent, which dots MAME's arcs are found to have, and how far a circle lies from the true one."""

import math
import os
import sys
from collections import Counter

from building import number_bytes, record
from making import LENGTH, Sheet, memory, step_lines, their_moves

sys.path.append(os.path.join(os.path.dirname(os.path.dirname(os.path.abspath(__file__))), 'second'))
from figures import axis, diagonal          # noqa: E402
from steps import SIDEWAYS, VERTICAL, logic_unit, step      # noqa: E402

WORDS, HEIGHT, CENTRE = 64, 1024, 511       # a plane of 1,024 by 1,024 dots fills MAME's memory; radius 511 is the largest there
RANGES = [(1, 1), (2, 2), (3, 16), (17, 64), (65, 255), (256, 511)]
STARTS = [(-1, 0), (0, -1), (0, 1), (-1, 0), (1, 0), (0, 1), (0, -1), (1, 0)]        # the end at which the arc of each DIR starts


# ---------------------------------------------------------------- the dots, in three ways

def last_dot(radius):
    """Along and out, by the sentence of M-100: the largest i with 2i² at most r²."""
    along = math.isqrt(radius * radius // 2)
    return along, out_of(radius, along)


def out_of(radius, along):
    """How far out the dot lies: y(y - 1) + i² < r², and r² is at most y(y + 1) + i²."""
    left = radius * radius - along * along
    out = math.isqrt(left)
    return out if left <= out * (out + 1) else out + 1


def eightfold(octant):
    return {place for x, y in octant for a, b in ((x, y), (y, x)) for place in ((a, b), (a, -b), (-a, b), (-a, -b))}


def requested(radius):
    return eightfold((along, out_of(radius, along)) for along in range(last_dot(radius)[0] + 1))


def nearest(radius):
    """In every column, and in every row, the dot nearest to the true circle."""
    return eightfold((along, out_of(radius, along)) for along in range(radius))


def their_circle(radius):
    """How often MAME meets each dot, if it is sent what our translator sends."""
    met, (most, out) = Counter(), last_dot(radius)
    for direction, (right, down) in enumerate(STARTS):
        x, y = radius * right, radius * down
        odd = direction % 2
        for along, slanted in zip(range(most + 1 - (odd and most == out)), their_moves(radius - 1)):
            met[x, y] += along >= odd
            way = (diagonal if slanted else axis)(direction)
            x, y = x + SIDEWAYS[way], y + VERTICAL[way]
    return +met


# ---------------------------------------------------------------- circles

class Circle(Sheet):
    """A sheet with one circle in the middle of the plane that fills the memory."""

    def __init__(self, radius, operation, memory_lines):
        self.words, self.height, self.glyphs, self.memory = WORDS, HEIGHT, bytes(8), memory_lines
        self.figures = [record(5, operation, CENTRE, CENTRE, number_bytes(radius) + [0, 0])]


def circles_of(radius):
    """COMPLEMENT into an empty memory, then SET over it: the dots met an odd number of times, then all that were met."""
    return [Circle(radius, 1, [f'M {LENGTH:X}']), Circle(radius, 3, [])]


def rounded_up(radius):
    """The circle of 002's own table, by SET: eight arcs with DC r/√2 rounded up, and DM 0."""
    most = last_dot(radius)[0]
    lines = [f'M {LENGTH:X}', *step_lines(f'47 {WORDS:X}'), *step_lines('23')]
    for direction, (right, down) in enumerate(STARTS):
        place, dot = divmod(CENTRE + radius * right, 16)
        numbers = [most + (2 * most * most < radius * radius), radius - 1, 2 * (radius - 1), 0x3FFF, 0]
        lines += sent(0x49, *number_bytes(WORDS * (CENTRE + radius * down) + place), 16 * dot) + sent(0x78, 0xFF, 0xFF)
        lines += sent(0x4C, 0x20 + direction, *[byte for number in numbers for byte in number_bytes(number)]) + sent(0x6C)
    return lines + [f'V 0 {LENGTH:X}']


def sent(*some):
    return step_lines(' '.join(f'{byte:02X}' for byte in some))


def dots_of(shown):
    """The dots of a line of all words, about the middle."""
    words = [(place, int(word, 16)) for place, word in enumerate(shown.split()[1:]) if word != '0']
    return {(16 * (place % WORDS) + bit - CENTRE, place // WORDS - CENTRE) for place, word in words for bit in range(16) if word >> bit & 1}


def pieces(dots):
    """The parts of a set of dots that hang together under the eight neighbours: of a circle 1, or as many as it has gaps."""
    left, count = set(dots), 0
    while left:
        count, waiting = count + 1, [left.pop()]
        while waiting:
            x, y = waiting.pop()
            near = left & {(x + right, y + down) for right in (-1, 0, 1) for down in (-1, 0, 1)}
            left -= near
            waiting += near
    return count


class Drawn:
    """A circle as a controller drew it: the dots that it met, those met an odd number of times, and how it lies."""

    def __init__(self, radius, odd, dots):
        away = [math.hypot(x, y) - radius for x, y in dots]
        self.odd, self.dots = odd, dots
        self.largest, self.total, self.outward = max(map(abs, away)), sum(map(abs, away)), sum(away)
        self.closed = pieces(dots) == 1
        self.turned = dots == {(-y, x) for x, y in dots}
        self.symmetric = dots == eightfold(dots)


# ---------------------------------------------------------------- the table

HEAD = """\
                    dots            in one only    ours: largest, mean,  MAME's: the same     gaps at    uneven at  met twice
radii      same at  ours    MAME's  ours   MAME's  outward               three                ours MAME  ours MAME  ours MAME"""


def lies(circles):
    """How far the dots lie from the true circle: the furthest of them, the mean, and the mean with inward as less than 0."""
    count = sum(len(circle.dots) for circle in circles)
    return (f'{max(circle.largest for circle in circles):.3f}  {sum(circle.total for circle in circles) / count:.3f}  '
            f'{sum(circle.outward for circle in circles) / count:+.3f}')


def row_of(first, last, ours, theirs):
    """A row of the table, of the circles of radii first to last."""
    both, pairs = (ours, theirs), list(zip(ours, theirs))
    dots = [sum(len(circle.dots) for circle in circles) for circles in both]
    alone = [sum(len(one.dots - other.dots) for one, other in some) for some in (pairs, zip(theirs, ours))]
    gaps = [sum(not circle.closed for circle in circles) for circles in both]
    uneven = [sum(not circle.symmetric for circle in circles) for circles in both]
    twice = [sum(len(circle.dots - circle.odd) for circle in circles) for circles in both]
    same = sum(one.dots == other.dots for one, other in pairs)
    return (f'{first:3} .. {last:3} {same:7}  {dots[0]:6}  {dots[1]:6}  {alone[0]:6} {alone[1]:6}  '
            f'{lies(ours)}  {lies(theirs)}  {gaps[0]:4} {gaps[1]:4}  {uneven[0]:4} {uneven[1]:4}  {twice[0]:4} {twice[1]:4}')


def wrong_about(radius, ours, theirs):
    """Where our circle is not the request's, or MAME's not the one that docs/PEER.md tells."""
    if not ours.dots == ours.odd == requested(radius):
        yield f"radius {radius}: our circle is not the one of the request's sentence"
    met = their_circle(radius)
    if theirs.dots != set(met) or theirs.odd != {dot for dot, times in met.items() if times % 2}:
        yield f"radius {radius}: MAME's circle is not the one that docs/PEER.md tells"
    if not (ours.turned and theirs.turned):
        yield f'radius {radius}: a circle is not what it was before a quarter turn, so that its gaps are not rightly counted'


def said_of(ours, theirs):
    """The table in words."""
    pairs = list(zip(ours, theirs))
    best = [nearest(radius) for radius in range(1, len(ours) + 1)]
    same = [str(radius) for radius, (one, other) in enumerate(pairs, 1) if one.dots == other.dots]
    lacking = [len(dots - one.dots) for one, dots in zip(ours, best)]
    strange = [sum(len(circle.dots - dots) for circle, dots in zip(circles, best)) for circles in (ours, theirs)]
    total, alone = sum(len(one.dots) for one in ours), sum(len(one.dots - other.dots) for one, other in pairs)
    return [f'Of {len(pairs)} circles {len(same)} are the same in both: radii {", ".join(same)}.',
            f'In MAME {alone:,} of {total:,} dots ({100 * alone / total:.1f} in a hundred) stand elsewhere; '
            f'at {sum(not near(*pair) for pair in pairs)} radii one of these is further off than the next place.',
            f'Of the dots nearest to the true circle, in each column and row, ours lack {max(lacking)} at {sum(map(bool, lacking))} radii; '
            f"of our dots {strange[0]} are others, of MAME's {strange[1]:,}."]


def near(one, other):
    """Whether each dot of either is a dot of the other or beside one."""
    wide = [{(x + right, y + down) for x, y in circle.dots for right in (-1, 0, 1) for down in (-1, 0, 1)} for circle in (one, other)]
    return one.dots <= wide[1] and other.dots <= wide[0]


def enlarged(radius, dots):
    """A picture in PBM: each dot seven by seven, with a white line to the right of it and below; a dot of the centre small."""
    side = 2 * radius + 3
    black = {(8 * (x + radius + 1) + right, 8 * (y + radius + 1) + down) for x, y in dots for right in range(7) for down in range(7)}
    black |= {(8 * (radius + 1) + right, 8 * (radius + 1) + down) for right in (2, 3, 4) for down in (2, 3, 4)}
    rows = (bytes(sum(128 >> bit for bit in range(8) if (8 * byte + bit, row) in black) for byte in range(side)) for row in range(8 * side))
    return b'P4\n%d %d\n' % (8 * side, 8 * side) + b''.join(rows)


# ---------------------------------------------------------------- arcs

class Arc:
    """An arc with everything at random, its lines, and the words and the cursor that MAME is to leave."""

    def __init__(self, chances):
        below, pick = chances.randrange, chances.choice
        start = memory(chances)[:200]
        self.pitch, self.operation, self.pattern = pick([1, 2, 40, 255]), below(4), pick([0xFFFF, below(0x10000)])
        self.ead, self.mask, self.direction = below(0x40000), pick([1 << below(16), below(0x10000)]), below(8)
        self.dc = pick([below(20), below(100), below(2000), below(0x4000)])
        self.dm = pick([0, 1, below(self.dc + 3), below(0x4000)])
        self.d = pick([below(20), below(200), below(2000), below(0x4000)])
        numbers = [self.dc, self.d, below(0x4000), below(0x4000), self.dm]
        self.lines = (start + sent(0x47, self.pitch) + sent(0x20 + self.operation) + sent(0x78, *number_bytes(self.pattern))
                      + sent(0x49, *number_bytes(self.ead), self.ead >> 16) + sent(0x4A, *number_bytes(self.mask))
                      + sent(0x4C, 0x20 + self.direction, *[byte for number in numbers for byte in number_bytes(number)]) + sent(0x6C)
                      + step_lines('CURD') + [f'V 0 {LENGTH:X}'])
        self.words = [0] * LENGTH
        for line in start[1:]:
            address, word = line.split()[1:]
            self.words[int(address, 16)] = int(word, 16)

    def looks(self):
        """What MAME is to answer to the five reads of CURD and to V."""
        ead, mask = self.ead, self.mask
        for along, slanted in zip(range(self.dc + 1), their_moves(self.d)):
            if along >= self.dm:
                bit = self.pattern >> along % 15 & 1
                self.words[ead % LENGTH] = logic_unit(self.words[ead % LENGTH], mask, 0xFFFF * bit, self.operation)
            ead, mask = step(ead, mask, (diagonal if slanted else axis)(self.direction), self.pitch)
        cursor = number_bytes(ead) + [ead >> 16] + number_bytes(mask)
        return [f'R 0 {byte:X}' for byte in cursor] + ['V ' + ' '.join(f'{word:X}' for word in self.words)]
