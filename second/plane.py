"""The plane: what the figures of a sheet make of the dots of a picture.

A part of the SECOND PROGRAM, written from document 01's paragraph "Plane",
the sentence of request M-100 about a circle's dots, and nothing else. It knows
no registers, no EAD, no directions, no arcs: it paints dots. The bench holds
it against the controller each time a sheet is drawn.
"""

from math import isqrt

from sheet import CIRCLE, DOT, LINE, RECTANGLE, glyph_rows


def paint(memory, picture, glyphs, figures):
    # Changes the words of `memory` in place, figure by figure.
    for figure in figures:
        for x, y, bit in dots(figure, glyphs):
            change_dot(memory, picture, x, y, figure.operation, bit)


def change_dot(memory, picture, x, y, operation, bit):
    # "dot (x, y) is bit x mod 16 of word y·P + x div 16." "A figure changes
    # each of its dots once, as the logic unit does with its operation and
    # pattern bit 1."
    place = y * picture.words + x // 16
    dot = 2 ** (x % 16)
    is_set = memory[place] & dot != 0
    if operation == 0:
        wanted = bit == 1                     # REPLACE takes the pattern bit
    elif bit == 0:
        wanted = is_set                       # the others: a 0 changes nothing
    elif operation == 1:
        wanted = not is_set                   # COMPLEMENT flips
    else:
        wanted = operation == 3               # RESET clears, SET sets
    if wanted != is_set:
        memory[place] ^= dot


def dots(figure, glyphs):
    # Each dot of a figure once: x, y and its pattern bit.
    if figure.kind == DOT:
        return [(figure.x, figure.y, 1)]
    if figure.kind == LINE:
        return line_dots(figure)
    if figure.kind == RECTANGLE:
        return border_dots(figure)
    if figure.kind == CIRCLE:
        return circle_dots(figure)
    return glyph_dots(figure, glyph_rows(glyphs, figure.number))


def sign(number):
    if number > 0:
        return 1
    if number < 0:
        return -1
    return 0


def line_dots(figure):
    # "Line, N the larger and m the smaller distance: dots i = 0 to N, minor
    # offset floor((2im + N)/(2N)), 0 if N = 0."
    across, down = figure.x1 - figure.x, figure.y1 - figure.y
    n = max(abs(across), abs(down))
    m = min(abs(across), abs(down))
    right, below = sign(across), sign(down)
    for i in range(n + 1):
        offset = (2 * i * m + n) // (2 * n) if n > 0 else 0
        if abs(across) >= abs(down):
            yield figure.x + i * right, figure.y + offset * below, 1
        else:
            yield figure.x + offset * right, figure.y + i * below, 1


def border_dots(figure):
    # "Rectangle: its border." "rectangle to any opposite corner x1, y1"
    left, right = min(figure.x, figure.x1), max(figure.x, figure.x1)
    top, bottom = min(figure.y, figure.y1), max(figure.y, figure.y1)
    for y in range(top, bottom + 1):
        if y == top or y == bottom:
            for x in range(left, right + 1):
                yield x, y, 1
        else:
            yield left, y, 1
            if right > left:
                yield right, y, 1


def glyph_dots(figure, rows):
    # "Glyph at top left: 8g by 8g dots, the pattern bit being the glyph's."
    # "top row first, bit 0 leftmost"
    g = figure.factor
    for down in range(8 * g):
        for right in range(8 * g):
            bit = rows[down // g] >> (right // g) & 1
            yield figure.x + right, figure.y + down, bit


def circle_dots(figure):
    # "In each octant, for every i with 2i² at most r², its dot lies y out".
    # "Each dot of the circle is changed once, also where octants meet": a set.
    r = figure.radius
    found = set()
    i = 0
    while 2 * i * i <= r * r:
        y = how_far_out(r, i)
        for right in (1, -1):
            for down in (1, -1):
                found.add((figure.x + right * i, figure.y + down * y))
                found.add((figure.x + right * y, figure.y + down * i))
        i += 1
    return [(x, y, 1) for x, y in found]


def how_far_out(r, i):
    # "its dot lies y out, where y(y - 1) + i² < r² and r² is at most y(y + 1)
    # + i²": the root of r² - i², rounded down or up.
    root = isqrt(r * r - i * i)
    for y in (root, root + 1):
        if y * (y - 1) + i * i < r * r <= y * (y + 1) + i * i:
            return y
