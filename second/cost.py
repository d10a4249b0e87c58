"""The cost of a sheet, said in advance: entries and cycles, counted from its figures' numbers.

A part of the SECOND PROGRAM, written from the paper alone (see chip.py): request
M-106. "For an accepted sheet we want the units reported in demand 3's run to be
the translation's entries plus one cycle for each visited dot". Nothing is
translated here and nothing sent; bench.py holds both counts to the translation
and to what the controller does.
"""

from sheet import CIRCLE, DOT, GLYPH, RECTANGLE, largest_i, last_dots_coincide

# How many entries a command has in a translation, its own byte among them:
# "PITCH P", "WDAT word with the operation", "ZOOM g - 1", "CURS (3 bytes)",
# "PRAM 8 with FF FF", "PRAM 8 with eight rows", "FIGD" or "GCHRD".
PITCH, WDAT, ZOOM, CURS = 2, 1, 2, 4
PATTERN, ROWS, DRAW = 3, 9, 1


def cost(figures):
    # Gives the entries and the units: each entry is taken in one unit.
    entries = PITCH + sum(entries_of(figure) for figure in figures)
    return entries, entries + sum(cycles_of(figure) for figure in figures)


# ---------------------------------------------------------------- entries

def entries_of(figure):
    # "per figure WDAT word with the operation, then for dots, lines,
    # rectangles CURS (3 bytes), PRAM 8 with FF FF, FIGS, FIGD; for glyphs
    # ZOOM g - 1, CURS, PRAM 8 with eight rows, FIGS, GCHRD."
    if figure.kind == GLYPH:
        return WDAT + ZOOM + CURS + ROWS + figs(1) + DRAW
    if figure.kind == CIRCLE:
        # "after one WDAT its eight arcs", "each sent as a line is": DC, D,
        # D2, D1, "and DM too".
        return WDAT + 8 * (CURS + PATTERN + figs(5) + DRAW)
    return WDAT + CURS + PATTERN + figs(numbers_of(figure)) + DRAW


def figs(numbers):
    # "FIGS sends its first byte and then both bytes of each number named
    # here, no more."
    return 2 + 2 * numbers


def numbers_of(figure):
    # "dot 02; line ... DC N, D 2m - N, D2 2m - 2N, D1 2m; rectangle ... DC 3,
    # D height - 1, D2 width - 1, D1 -1, DM = D"
    if figure.kind == DOT:
        return 0
    return 5 if figure.kind == RECTANGLE and not flat(figure) else 4


# ----------------------------------------------------------------- cycles

def cycles_of(figure):
    # "1 for a dot, N + 1 for a line, 2(A + B) for a rectangle of A + 1 by B + 1
    # when neither is 0, else its line's, 64·g² for a glyph, the number of its
    # dots for a circle."
    if figure.kind == DOT:
        return 1
    if figure.kind == GLYPH:
        return 64 * figure.factor * figure.factor
    if figure.kind == CIRCLE:
        return dots_of_circle(figure.radius)
    a, b = distances(figure)
    if figure.kind == RECTANGLE and not flat(figure):
        return 2 * (a + b)
    return max(a, b) + 1


def distances(figure):
    # Of a line's ends, of a rectangle's corners: "N the larger".
    return abs(figure.x1 - figure.x), abs(figure.y1 - figure.y)


def flat(figure):
    # "A rectangle one dot wide or high is translated as the line from its
    # least to its greatest corner."
    a, b = distances(figure)
    return a == 0 or b == 0


def dots_of_circle(r):
    # DC + 1 - DM for each arc: "with DC the largest i", "even ones have DM 0,
    # odd ones DM 1 and a DC one less where the octants' last dots coincide on
    # the diagonal". At radius 1 the odd arcs draw nothing: 0 + 1 - 1.
    dc = largest_i(r)
    even, odd = dc + 1, dc
    if last_dots_coincide(r):
        odd = odd - 1
    return 4 * even + 4 * odd
