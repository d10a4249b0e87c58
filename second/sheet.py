"""Drawing sheets: the checks in document 01's order, decoding, translation.

A part of the SECOND PROGRAM, written from the paper alone; the sentences
about circles are those of request M-100. A sheet is a `bytes` value; its
figures come out as `Figure` values; its translation is a list of 16-bit
entries. A refusal is a `Refused` value with 01's three numbers.
"""

from collections import namedtuple
from math import isqrt

BLOCK_SIZE = 512
RECORD_SIZE = 10

# The kinds of record: "Kinds: 1 dot ...; 2 line ...; 3 rectangle ...; 4 glyph",
# "Sheet record kind 5 is a circle"
DOT, LINE, RECTANGLE, GLYPH, CIRCLE = 1, 2, 3, 4, 5

# A figure of the sheet. A line and a rectangle use x1, y1; a glyph uses
# number, factor; a circle uses radius; what a kind does not use is 0.
Figure = namedtuple("Figure", "kind operation x y x1 y1 number factor radius", defaults=[0])

Picture = namedtuple("Picture", "words lines")      # P and H


class Refused(Exception):
    """A number of refusal and the two values that go with it."""

    def __init__(self, number, first=0, second=0):
        Exception.__init__(self, number, first, second)
        self.answer = (number, first, second)


def word_at(data, place):
    # "numbers unsigned, little-endian."
    return data[place] + 256 * data[place + 1]


# ------------------------------------------------------------------ checks

def read_sheet(picture, glyphs, sheet):
    # "Checks run in table order; 14 and 15 block by block, then 16 to 19
    # record by record over the sheet." Gives the figures, or raises Refused.
    check_picture(picture)
    check_glyphs(glyphs)
    check_length(sheet)
    blocks = cut_into_blocks(sheet)
    for number, block in enumerate(blocks):
        check_block_sum(number, block)
        check_block_form(number, block, len(blocks))
    figures = []
    for number, block in enumerate(blocks):
        for index in range(block[2]):
            figures.append(read_record(picture, glyphs, block, number, index))
    return figures


def check_picture(picture):
    # 11: "P, H or P·H out of range"; "P 1 to 255, H 1 to 4,096, P·H at most
    # 262,144"
    if not 1 <= picture.words <= 255:
        raise Refused(11)
    if not 1 <= picture.lines <= 4096:
        raise Refused(11)
    if picture.words * picture.lines > 262144:
        raise Refused(11)


def check_glyphs(glyphs):
    # 12: "glyph bytes not a multiple of 8, or over 2,048"
    if len(glyphs) % 8 != 0 or len(glyphs) > 2048:
        raise Refused(12)


def check_length(sheet):
    # 13: "sheet length wrong"; "A sheet is 1 to 16 blocks of 512 bytes"
    if len(sheet) % BLOCK_SIZE != 0:
        raise Refused(13)
    if not 1 <= len(sheet) // BLOCK_SIZE <= 16:
        raise Refused(13)


def cut_into_blocks(sheet):
    return [sheet[start:start + BLOCK_SIZE]
            for start in range(0, len(sheet), BLOCK_SIZE)]


def block_sum(block):
    # "510-511 the check: the sum of the 255 words before it plus 7220,
    # modulo 65,536."
    total = sum(block[0:510:2]) + 256 * sum(block[1:510:2])
    return (total + 7220) % 65536


def check_block_sum(number, block):
    # 14: "a block's check"
    if word_at(block, 510) != block_sum(block):
        raise Refused(14, number)


def check_block_form(number, block, blocks):
    # 15: "its heading, spare bytes or unused records"
    if word_at(block, 0) != number:              # "0-1 block number from 0"
        raise Refused(15, number)
    count = block[2]
    if count > 50:                               # "2 figure count 0 to 50"
        raise Refused(15, number)
    last = 1 if number == blocks - 1 else 0
    if block[3] != last:                         # "3 is 1 in the last block"
        raise Refused(15, number)
    if any(block[4 + RECORD_SIZE * count:504]):  # "unused ones zero"
        raise Refused(15, number)
    if any(block[504:510]):                      # "504-509 zero"
        raise Refused(15, number)


def read_record(picture, glyphs, block, block_number, index):
    # "16, 17, 18, 19 | record's form; glyph number; factor; a dot outside";
    # "18 also for a radius out of range."
    record = record_of(block, index)
    figure = decode(record)
    where = (block_number, index)
    if not form_is_right(record):
        raise Refused(16, *where)
    if figure.kind == GLYPH:
        if 8 * figure.number + 8 > len(glyphs):  # "eight per glyph"
            raise Refused(17, *where)
        if not 1 <= figure.factor <= 16:         # "factor 1 to 16"
            raise Refused(18, *where)
    if figure.kind == CIRCLE:
        if not 1 <= figure.radius <= 2000:       # "radius 1 to 2,000"
            raise Refused(18, *where)
    if has_a_dot_outside(figure, picture):
        raise Refused(19, *where)
    return figure


def record_of(block, index):
    # "4-503 fifty records of ten bytes"
    start = 4 + RECORD_SIZE * index
    return block[start:start + RECORD_SIZE]


def form_is_right(record):
    # "A record: kind, operation 0 to 3, x, y, four bytes. Kinds: 1 dot (four
    # zeros); 2 line to x1, y1; 3 rectangle to any opposite corner x1, y1;
    # 4 glyph (number, factor 1 to 16, two zeros)." "kind 5 is a circle about
    # x, y, radius 1 to 2,000, two zero bytes."
    kind, operation, rest = record[0], record[1], record[6:10]
    if not 1 <= kind <= 5 or operation > 3:
        return False
    if kind == DOT and any(rest):
        return False
    if kind == GLYPH and any(rest[2:4]):
        return False
    if kind == CIRCLE and any(rest[2:]):
        return False
    return True


def decode(record):
    kind, operation = record[0], record[1]
    x, y = word_at(record, 2), word_at(record, 4)
    if kind == LINE or kind == RECTANGLE:
        return Figure(kind, operation, x, y, word_at(record, 6), word_at(record, 8), 0, 0)
    if kind == GLYPH:
        return Figure(kind, operation, x, y, 0, 0, record[6], record[7])
    if kind == CIRCLE:
        return Figure(kind, operation, x, y, 0, 0, 0, 0, word_at(record, 6))
    return Figure(kind, operation, x, y, 0, 0, 0, 0)


def has_a_dot_outside(figure, picture):
    # 19: "a dot outside". It is enough to look at the corners of the box
    # that the figure fills, or at the four ends of a circle.
    return any(x < 0 or y < 0 or x >= 16 * picture.words or y >= picture.lines
               for x, y in corners(figure))


def corners(figure):
    if figure.kind == DOT:
        return [(figure.x, figure.y)]
    if figure.kind == GLYPH:
        # "Glyph at top left: 8g by 8g dots"
        side = 8 * figure.factor
        return [(figure.x + side - 1, figure.y + side - 1)]
    if figure.kind == CIRCLE:
        # Its dots for i = 0; no dot lies further out.
        x, y, r = figure.x, figure.y, figure.radius
        return [(x - r, y), (x + r, y), (x, y - r), (x, y + r)]
    return [(figure.x, figure.y), (figure.x1, figure.y1)]


# ------------------------------------------------------------- translation

def command(byte):
    # "16-bit entries, commands are the byte + 256"
    return byte + 256


def both_bytes(number):
    # "both bytes of each number", low byte first; below 0 as 14-bit pattern.
    pattern = number % 0x4000
    return [pattern % 256, pattern // 256]


def translate(picture, glyphs, figures):
    # "Translation ...: PITCH P; per figure ..."
    entries = [command(0x47), picture.words]
    for figure in figures:
        entries += translate_figure(picture, glyphs, figure)
    return entries


def translate_figure(picture, glyphs, figure):
    # "per figure WDAT word with the operation, then ..."
    entries = [command(0x20 + figure.operation)]
    if figure.kind == DOT:
        return entries + translate_dot(picture, figure)
    if figure.kind == LINE:
        return entries + translate_line(picture, figure.x, figure.y, figure.x1, figure.y1)
    if figure.kind == RECTANGLE:
        return entries + translate_rectangle(picture, figure)
    if figure.kind == CIRCLE:
        return entries + translate_circle(picture, figure)
    return entries + translate_glyph(picture, glyphs, figure)


def curs(picture, x, y):
    # "CURS (3 bytes)"; "dot (x, y) is bit x mod 16 of word y·P + x div 16."
    ead = y * picture.words + x // 16
    return [command(0x49), ead % 256, ead // 256 % 256, 16 * (x % 16) + ead // 65536]


def pattern_of_ones():
    # "PRAM 8 with FF FF"
    return [command(0x78), 0xFF, 0xFF]


def figs(first_byte, numbers):
    # "FIGS sends its first byte and then both bytes of each number named
    # here, no more."
    entries = [command(0x4C), first_byte]
    for number in numbers:
        entries += both_bytes(number)
    return entries


def translate_dot(picture, figure):
    # "FIGS: dot 02"
    return curs(picture, figure.x, figure.y) + pattern_of_ones() + figs(0x02, []) + [command(0x6C)]


def translate_line(picture, x, y, x1, y1):
    # "line L with the smallest fitting DIR, DC N, D 2m - N, D2 2m - 2N, D1 2m"
    n = max(abs(x1 - x), abs(y1 - y))
    m = min(abs(x1 - x), abs(y1 - y))
    first_byte = 0x08 + smallest_fitting_direction(x1 - x, y1 - y)
    numbers = [n, 2 * m - n, 2 * m - 2 * n, 2 * m]
    return curs(picture, x, y) + pattern_of_ones() + figs(first_byte, numbers) + [command(0x6C)]


# The moves (right, down) that a line or an arc along DIR makes: its axis move
# and its diagonal move. "For even DIR the axis is DIR and the diagonal DIR +
# 1; for odd, the axis is DIR + 1 mod 8 and the diagonal DIR."
LINE_MOVES = [
    ((0, 1), (1, 1)),       # DIR 0: down, down-right
    ((1, 0), (1, 1)),       # DIR 1: right, down-right
    ((1, 0), (1, -1)),      # DIR 2: right, up-right
    ((0, -1), (1, -1)),     # DIR 3: up, up-right
    ((0, -1), (-1, -1)),    # DIR 4: up, up-left
    ((-1, 0), (-1, -1)),    # DIR 5: left, up-left
    ((-1, 0), (-1, 1)),     # DIR 6: left, down-left
    ((0, 1), (-1, 1)),      # DIR 7: down, down-left
]


def smallest_fitting_direction(right, down):
    # "the smallest fitting DIR": the first whose N - m axis moves and m
    # diagonal moves lead from the one end to the other.
    n = max(abs(right), abs(down))
    m = min(abs(right), abs(down))
    for direction in range(8):
        axis, diagonal = LINE_MOVES[direction]
        reached_right = (n - m) * axis[0] + m * diagonal[0]
        reached_down = (n - m) * axis[1] + m * diagonal[1]
        if (reached_right, reached_down) == (right, down):
            return direction


def translate_rectangle(picture, figure):
    # "rectangle from its top left, DIR 0, DC 3, D height - 1, D2 width - 1,
    # D1 -1, DM = D"
    left, right = min(figure.x, figure.x1), max(figure.x, figure.x1)
    top, bottom = min(figure.y, figure.y1), max(figure.y, figure.y1)
    if left == right or top == bottom:
        # "A rectangle one dot wide or high is translated as the line from
        # its least to its greatest corner."
        return translate_line(picture, left, top, right, bottom)
    numbers = [3, bottom - top, right - left, -1, bottom - top]
    return curs(picture, left, top) + pattern_of_ones() + figs(0x40, numbers) + [command(0x6C)]


def translate_glyph(picture, glyphs, figure):
    # "for glyphs ZOOM g - 1, CURS, PRAM 8 with eight rows, FIGS, GCHRD";
    # "glyph from its bottom left, DIR 2, DC 7."
    bottom = figure.y + 8 * figure.factor - 1
    entries = [command(0x46), figure.factor - 1]
    entries += curs(picture, figure.x, bottom)
    entries += [command(0x78)] + list(glyph_rows(glyphs, figure.number))
    return entries + figs(0x12, [7]) + [command(0x68)]


def translate_circle(picture, figure):
    # "after one WDAT its eight arcs go in order of DIR, each sent as a line
    # is"
    entries = []
    for direction in (0, 1, 2, 3, 4, 5, 6, 7):
        x, y = start_of_arc(figure, direction)
        numbers = numbers_of_arc(figure.radius, direction)
        entries += curs(picture, x, y) + pattern_of_ones() + figs(0x20 + direction, numbers) + [command(0x6C)]
    return entries


def start_of_arc(figure, direction):
    # The end of the circle from which the axis move goes along the circle
    # and the diagonal move inward as well: the centre is one radius inward.
    axis, diagonal = LINE_MOVES[direction]
    inward = diagonal[0] - axis[0], diagonal[1] - axis[1]
    return figure.x - figure.radius * inward[0], figure.y - figure.radius * inward[1]


def numbers_of_arc(r, direction):
    # "With D = r - 1, D2 = 2(r - 1), D1 = -1"; "with DC the largest i, and DM
    # too: even ones have DM 0, odd ones DM 1 and a DC one less where the
    # octants' last dots coincide on the diagonal"
    dc, dm = largest_i(r), 0
    if direction % 2 == 1:
        dm = 1
        if last_dots_coincide(r):
            dc = dc - 1
    return [dc, r - 1, 2 * (r - 1), -1, dm]


def largest_i(r):
    # "every i with 2i² at most r²"
    return isqrt(r * r // 2)


def last_dots_coincide(r):
    # "that is where the largest i's dot lies i out": y is i in "y(y - 1) + i²
    # < r² and r² is at most y(y + 1) + i²".
    i = largest_i(r)
    return i * (i - 1) + i * i < r * r <= i * (i + 1) + i * i


def glyph_rows(glyphs, number):
    # "Glyph table: lent bytes, eight per glyph, top row first, bit 0 leftmost."
    return glyphs[8 * number:8 * number + 8]


def fits(room, entries):
    # 20: "output shorter than the translation | entries needed, 0"
    if room < len(entries):
        raise Refused(20, len(entries))
