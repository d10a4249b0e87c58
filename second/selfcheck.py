"""The self check: worked cases, written out by hand from document 01 and 02.

A part of the SECOND PROGRAM. `python3 selfcheck.py` prints how many checks
were made and how many came out wrong; the exit status is 1 if any did. The
expected values below are copied from 01's bench sheet or worked out from the
papers' sentences with pencil and paper, not taken from any program.
"""

import sys

from bench import Bench, digest
from checking import check, summary, talk
from commands import NAMES
from plane import border_dots, circle_dots, dots, glyph_dots, line_dots
from selfcheck_left import check_cycles_left
from selfcheck_writes import check_bit_mapped_work
from sheet import CIRCLE, DOT, GLYPH, LINE, RECTANGLE, Figure, Picture, block_sum, translate
from steps import logic_unit, step, whole_word_move


def block(number, count, last, records, damage=None):
    # A block with its check; `damage` is (place, byte) set before the check.
    body = bytearray(510)
    body[0:4] = bytes([number % 256, number // 256, count, last])
    for index, record in enumerate(records):
        body[4 + 10 * index:14 + 10 * index] = bytes.fromhex(record)
    if damage is not None:
        body[damage[0]] = damage[1]
    total = block_sum(bytes(body))
    return bytes(body) + bytes([total % 256, total // 256])


def check_logic_unit():
    check("K1", logic_unit(0x00FF, 0x0F0F, 0x3333, 0), 0x03F3)
    check("K2", logic_unit(0x00FF, 0x0F0F, 0x3333, 1), 0x03FC)
    check("K3", logic_unit(0x00FF, 0x0F0F, 0x3333, 2), 0x00FC)
    check("K4", logic_unit(0x00FF, 0x0F0F, 0x3333, 3), 0x03FF)


def check_steps():
    check("K5", step(5, 0x8000, 2, 0), (6, 0x0001))
    check("K6", step(0, 0x0001, 6, 0), (262143, 0x8000))
    check("K7", step(100, 0x8000, 3, 40), (61, 0x0001))
    # Each direction from EAD 100, pitch 10, a mask in the middle of a word.
    ends = [(110, 0x10), (110, 0x20), (100, 0x20), (90, 0x20),
            (90, 0x10), (90, 0x08), (100, 0x08), (110, 0x08)]
    for direction in range(8):
        check("step %d" % direction, step(100, 0x10, direction, 10), ends[direction])
    # A whole word in each direction.
    ends = [110, 111, 101, 91, 90, 89, 99, 109]
    for direction in range(8):
        check("word %d" % direction, whole_word_move(100, direction, 10), ends[direction])
    check("wrap up", whole_word_move(262143, 2, 0), 0)
    check("wrap down", whole_word_move(0, 6, 0), 262143)
    check("mask FFFF always carries", step(7, 0xFFFF, 2, 3), (8, 0xFFFF))
    check("mask 0 never carries", step(7, 0, 5, 3), (4, 0))


def check_names():
    check("names", [NAMES[b] for b in (0x23, 0x28, 0x30, 0x3B, 0x24, 0xA0, 0xA8, 0xB8, 0xA4)],
          ["WDAT", "unknown", "WDAT", "WDAT", "unknown", "RDAT", "unknown", "RDAT", "unknown"])
    check("how many known", sum(name != "unknown" for name in NAMES), 1 + 2 + 11 + 16 + 12 + 3)


def check_lines():
    def along(x, y, x1, y1):
        return [(a, b) for a, b, _ in line_dots(Figure(LINE, 3, x, y, x1, y1, 0, 0))]
    check("K8 rows", [y for _, y in along(0, 0, 5, 2)], [0, 0, 1, 1, 2, 2])
    check("K9", along(0, 0, 2, 1)[1], (1, 1))
    check("K10", along(2, 1, 0, 0)[1], (1, 0))
    check("one dot", along(4, 4, 4, 4), [(4, 4)])
    entries = translate(Picture(40, 400), b"", [Figure(LINE, 0, 0, 0, 5, 2, 0, 0)])
    # WDAT, CURS 3, PRAM 2, then FIGS: L DIR 1, DC 5, D -1, D2 -6, D1 4.
    check("K8 entries", entries[2:],
          [0x120, 0x149, 0, 0, 0, 0x178, 0xFF, 0xFF, 0x14C, 0x09, 5, 0,
           0xFF, 0x3F, 0xFA, 0x3F, 4, 0, 0x16C])


def check_smallest_directions():
    # (right, down) and the DIR wanted.
    wanted = {(0, 0): 0, (0, 5): 0, (5, 0): 1, (0, -5): 3, (-5, 0): 5,
              (5, 5): 0, (5, -5): 2, (-5, -5): 4, (-5, 5): 6,
              (2, 5): 0, (5, 2): 1, (5, -2): 2, (2, -5): 3,
              (-2, -5): 4, (-5, -2): 5, (-5, 2): 6, (-2, 5): 7}
    for (right, down), direction in wanted.items():
        figure = Figure(LINE, 0, 100, 100, 100 + right, 100 + down, 0, 0)
        entries = translate(Picture(40, 400), b"", [figure])
        check("DIR of %d, %d" % (right, down), entries[11], 8 + direction)


def check_rectangles_and_glyphs():
    border = sorted((x, y) for x, y, _ in border_dots(Figure(RECTANGLE, 3, 3, 2, 1, 0, 0, 0)))
    check("border", border, [(1, 0), (1, 1), (1, 2), (2, 0), (2, 2), (3, 0), (3, 1), (3, 2)])
    flat = [(x, y) for x, y, _ in border_dots(Figure(RECTANGLE, 3, 3, 0, 0, 0, 0, 0))]
    check("flat border", sorted(flat), [(0, 0), (1, 0), (2, 0), (3, 0)])
    check("dot", dots(Figure(DOT, 3, 3, 2, 0, 0, 0, 0), b""), [(3, 2, 1)])
    rows = bytes([0x01, 0, 0, 0, 0, 0, 0, 0x80])
    ones = [(x, y) for x, y, bit in glyph_dots(Figure(GLYPH, 3, 10, 20, 0, 0, 0, 2), rows) if bit]
    check("glyph", ones, [(10, 20), (11, 20), (10, 21), (11, 21),
                          (24, 34), (25, 34), (24, 35), (25, 35)])
    entries = translate(Picture(40, 400), b"", [Figure(RECTANGLE, 1, 9, 7, 2, 3, 0, 0)])
    # Top left (2, 3): EAD 120, dot 2; height 5, width 8.
    check("rectangle entries", entries[2:],
          [0x121, 0x149, 120, 0, 0x20, 0x178, 0xFF, 0xFF, 0x14C, 0x40, 3, 0,
           4, 0, 7, 0, 0xFF, 0x3F, 4, 0, 0x16C])
    entries = translate(Picture(40, 400), rows, [Figure(GLYPH, 0, 17, 5, 0, 0, 0, 3)])
    # Bottom left (17, 28): EAD 28 * 40 + 1 = 1121 = 0461, dot 1.
    check("glyph entries", entries[2:],
          [0x120, 0x146, 2, 0x149, 0x61, 0x04, 0x10, 0x178, 1, 0, 0, 0, 0, 0, 0, 0x80,
           0x14C, 0x12, 7, 0, 0x168])
    entries = translate(Picture(40, 400), b"", [Figure(RECTANGLE, 1, 3, 0, 0, 0, 0, 0)])
    check("flat rectangle is a line", entries[11:20], [0x09, 3, 0, 0xFD, 0x3F, 0xFA, 0x3F, 0, 0])
    entries = translate(Picture(40, 400), b"", [Figure(RECTANGLE, 1, 3, 3, 3, 3, 0, 0)])
    check("one dot is a line", entries[11:20], [0x08, 0, 0, 0, 0, 0, 0, 0, 0])


def about(x, y, outs):
    # The dots of a circle whose dot i lies outs[i] out, each once.
    return {(x + right * across, y + down * below) for i, out in enumerate(outs)
            for across, below in ((i, out), (out, i)) for right in (1, -1) for down in (1, -1)}


def check_circles():
    # How far out the dots for i = 0, 1, .. lie. Radius 3: 2 * 2² = 8 is at
    # most 9; for i = 2, 2 * 1 + 4 < 9 and 9 is at most 2 * 3 + 4: 2 out, on
    # the diagonal. Radius 7: 2 * 4² = 32 is at most 49, 2 * 5² is not; for
    # i = 4, 6 * 5 + 16 < 49 and 49 is at most 6 * 7 + 16: 6 out. Radius 4,
    # i = 2: 3 * 4 + 4 = 16 is at most, 4 * 3 + 4 = 16 is not less: 3 out.
    outs = {1: [1], 2: [2, 2], 3: [3, 3, 2], 4: [4, 4, 3], 7: [7, 7, 7, 6, 6], 10: [10, 10, 10, 10, 9, 9, 8, 7]}
    sizes = {1: 4, 2: 12, 3: 16, 4: 20, 7: 36, 10: 56}
    for r in outs:
        found = sorted((x, y) for x, y, bit in circle_dots(Figure(CIRCLE, 3, 30, 20, 0, 0, 0, 0, r)) if bit == 1)
        check("circle of radius %d" % r, found, sorted(about(30, 20, outs[r])))
        check("dots of radius %d" % r, len(found), sizes[r])
    # Radius 7 is open at four places: (4, 6) and (6, 4) are dots, (5, 5) is not.
    ends = {(x, y) for x, y, _ in circle_dots(Figure(CIRCLE, 3, 0, 0, 0, 0, 0, 0, 7))}
    for right, down in ((1, 1), (1, -1), (-1, 1), (-1, -1)):
        check("gap", [(right * x, down * y) in ends for x, y in ((4, 6), (5, 5), (6, 4))], [True, False, True])


def arc_entries(ead_low, ead_high, top, first_byte, dc, d, d2, dm):
    # CURS, PRAM 8 with FF FF, FIGS with D1 = -1, FIGD; each number below 256.
    return [0x149, ead_low, ead_high, top, 0x178, 0xFF, 0xFF, 0x14C, first_byte,
            dc, 0, d, 0, d2, 0, 0xFF, 0x3F, dm, 0, 0x16C]


def check_circle_entries():
    # Radius 3 about (5, 4): left end (2, 4), right (8, 4), both in word A0;
    # top (5, 1), word 28; bottom (5, 7), word 118. DC 2, for odd DIR 1.
    left, right, top, bottom = (0xA0, 0, 0x20), (0xA0, 0, 0x80), (0x28, 0, 0x50), (0x18, 1, 0x50)
    starts = [left, top, bottom, left, right, bottom, top, right]
    wanted = [0x123]
    for direction in range(8):
        odd = direction % 2
        wanted += arc_entries(*starts[direction], 0x20 + direction, 2 - odd, 2, 4, odd)
    check("circle entries", translate(Picture(40, 400), b"", [Figure(CIRCLE, 3, 5, 4, 0, 0, 0, 0, 3)])[2:], wanted)
    # Radius 7: the last dots do not coincide, DC is 4 for all. Radius 1: DC 0.
    for r, dc in ((7, 4), (1, 0)):
        entries = translate(Picture(40, 400), b"", [Figure(CIRCLE, 0, 50, 40, 0, 0, 0, 0, r)])[3:]
        check("entries of radius %d" % r, len(entries), 160)
        for direction in range(8):
            check("numbers of radius %d, DIR %d" % (r, direction), entries[20 * direction + 7:20 * direction + 20],
                  arc_entries(0, 0, 0, 0x20 + direction, dc, r - 1, 2 * r - 2, direction % 2)[7:])
    # Radius 400: 2 * 282² = 159,048 is at most 160,000, 2 * 283² is not; for
    # i = 282, 284 * 283 + 282² < 160,000, so it lies further out than i: DC
    # 282 = 011A for all, D 399 = 018F, D2 798 = 031E.
    entries = translate(Picture(255, 900), b"", [Figure(CIRCLE, 0, 500, 450, 0, 0, 0, 0, 400)])[3:]
    for direction in range(8):
        check("numbers of radius 400", entries[20 * direction + 9:20 * direction + 19],
              [0x1A, 1, 0x8F, 1, 0x1E, 3, 0xFF, 0x3F, direction % 2, 0])


def check_the_listing():
    sheet = block(0, 1, 1, ["01031100020000000000"])
    check("the check of the worked sheet", sheet[510:], bytes([0x49, 0x20]))
    bench = Bench()
    bench.answer("B " + sheet.hex().upper())
    check("the worked sheet", bench.answer("T D"),
          "T 0 D 0 0147 0028 0123 0149 0051 0000 0010 0178 00FF 00FF 014C 0002 016C")
    check("one entry too few", bench.answer("T C"), "T 14 D 0")


def check_ports():
    talk("K12", "C 49; P 51; P 00; P 10; C E0; U 20; R; R; R; R; R; R",
         "U 0 5 2; R 0 51; R 0 0; R 0 0; R 0 2; R 0 0; R 5 0")
    talk("the seventeenth byte", "; ".join(["P 1"] * 17 + ["S", "C 6B", "C 0", "S"]),
         "P 3; S 2; C 3; S 4")
    talk("WDAT 30 with AB", "W 0 1234; C 4A; P FF; P FF; C 30; P AB; U 20; V 0 1",
         "U 0 5 2; V AB")
    talk("a parameter in read mode", "C E0; U 1; P 1; R; R; R; R; R; P 1; C 6B; P 1; S",
         "U 0 1 1; P 4; R 0 0; R 0 0; R 0 0; R 0 0; R 0 0; P 4; S 0")
    talk("the pen", "L 40000; L 3FFFF; S; C C0; U 5; S; R; R; R",
         "L 6; S 84; U 0 1 2; S 1; R 0 FF; R 0 FF; R 0 3")
    talk("RESET loads eight", "C 0; P 1; P 2; P 3; P 4; P 5; P 6; P 7; P 8; P 9; U 20; D",
         "U 0 9 2; D 0 0 0 0 8 8 3FFF 3FFF 0 0 0 0 %s 0102030405060708 000000 0 0 0 0 0 0"
         % ("00" * 16))


def check_figures():
    # K11: a rectangle with D = D2 = 0 takes only its commands' units: FIGS,
    # its seven parameters and FIGD.
    talk("K11", "C 4C; P 40; P 3; P 0; P 0; P 0; P 0; P 0; C 6C; U 100; V 0 8", "U 0 9 2; V 0 0 0 0 0 0 0 0")
    # K8 on the chip, pitch 1: six dots on rows 0 0 1 1 2 2; 27 entries (WDAT,
    # PITCH 2, CURS 4, PRAM 3, FIGS 10, FIGD) and 6 dots.
    talk("K8 drawn", "C 23; C 47; P 1; C 49; P 0; P 0; P 0; C 78; P FF; P FF; U A; "
         "C 4C; P 9; P 5; P 0; P FF; P 3F; P FA; P 3F; P 4; P 0; C 6C; U 11; V 0 4; D",
         "U 0 A 1; U 0 11 1; V 3 C 30 0; "
         "D 2 20 1 5 3FFF 3FFA 4 3FFF 9 0 3 0 0000000000000000FFFF000000000000 "
         "0000000000000000 000000 0 0 0 0 0 0")
    # A figure of one dot takes two units, with bit 3 set between them.
    talk("one dot", "C 6C; U 1; S; U 1; S", "U 0 1 1; S C; U 0 1 1; S 4")
    # Slip: the flat rectangle sent as a rectangle flips dots 1 and 2 twice.
    talk("flat rectangle on the chip",
         "C 21; C 78; P FF; P FF; C 49; P 0; P 0; P 0; U 10; "
         "C 4C; P 40; P 3; P 0; P 0; P 0; P 3; P 0; C 6C; U 40; V 0 1",
         "U 0 8 2; U 0 F 2; V 9")


def check_characters():
    # Two rows of two dots (DC 1, D 2) along right, then up; pitch 1, start
    # at word 5, dot 15. Row 0 uses RA15 = 2: its dot 1, bit 0 of word 6, is
    # set. Row 1 starts at word 4, dot 15 and uses RA14 = 1: its dot 0 is set;
    # its dot 1, bit 0 of word 5, stays, and EAD and mask stay there.
    talk("rows return to their start",
         "C 23; C 47; P 1; C 49; P 5; P 0; P F0; C 7E; P 1; P 2; U 20; "
         "C 4C; P 12; P 1; P 0; P 2; P 0; C 68; U 20; V 4 3; D",
         "U 0 A 2; U 0 B 2; V 8000 0 1; "
         "D 5 1 1 1 2 8 3FFF 3FFF 12 0 3 0 00000000000000000000000000000102 "
         "0000000000000000 000000 0 0 0 0 0 0")
    # A row of 4,097 * 16 = 65,552 dots: after 17 of them the next is the 18th
    # of the row, word 6, dot 4, from word 5, dot 3.
    talk("a row of 65,552 dots",
         "C 46; P F; C 49; P 5; P 0; P 30; U 20; C 4C; P 12; P 0; P 0; P 1; P 10; C 68; U 7; U 11; D",
         "U 0 6 2; U 0 7 1; U 0 11 1; D 6 10 0 0 1001 8 3FFF 3FFF 12 0 0 F %s 0000000000000000 000000 0 0 0 0 0 0"
         % ("00" * 16))
    # 8,065 * 8 rows of 8,321 * 8 dots are 2^32 + 64: not over after 64.
    talk("2^32 + 64 dots", "C 46; P 7; U 2; C 4C; P 12; P 80; P 1F; P 81; P 20; C 68; U 7; U 40; S; U 1; S",
         "U 0 2 1; U 0 7 1; U 0 40 1; S C; U 0 1 1; S C")


# The eight directions as (right, down), to follow a figure in the plane.
VECTORS = [(0, 1), (1, 1), (1, 0), (1, -1), (0, -1), (-1, -1), (-1, 0), (-1, 1)]


def drawn_dots(figs, numbers, start):
    # What a figure of SET dots from (40, 40) leaves in a picture 96 dots
    # wide, as a set of (x, y); RA8 and RA9 are FF, RA14 is 06, RA15 is 05.
    bench = Bench()
    script = ["M 400", "C 23", "C 46", "P 1", "C 47", "P 6", "C 78", "P FF", "P FF", "U 20",
              "C 7E", "P 6", "P 5", "C 49", "P F2", "P 0", "P 80", "U 20", "C 4C", "P %X" % figs]
    script += ["P %X" % byte for number in numbers for byte in (number % 256, number % 0x4000 // 256)]
    for line in script + ["U 20", "C %X" % start, "U FFFF"]:
        bench.answer(line)
    return {(16 * (place % 6) + bit, place // 6) for place, word in enumerate(bench.chip.memory)
            for bit in range(16) if word >> bit & 1}


def check_figures_in_the_plane():
    # EAD F2 is 242 = 40 * 6 + 2, dot 8: the start is (40, 40).
    for direction in range(8):
        right, down = VECTORS[direction]
        across, below = VECTORS[(direction + 2) % 8]
        check("dots along %d" % direction, drawn_dots(direction, [4], 0x6C),
              {(40 + i * right, 40 + i * down) for i in range(5)})
        border = {(40 + i * right + j * across, 40 + i * down + j * below)
                  for i in range(6) for j in range(4) if i in (0, 5) or j in (0, 3)}
        check("rectangle along %d" % direction, drawn_dots(0x40 + direction, [3, 5, 3], 0x6C), border)
        # Two rows of three dots by factor 2: row 0 is 101 (RA15), row 1 is
        # 011 from its start (RA14).
        ones = {(0, 0), (0, 2), (1, 1), (1, 2)}
        dots_set = {(40 + (2 * c + i) * right + (2 * r + j) * across,
                     40 + (2 * c + i) * down + (2 * r + j) * below)
                    for r, c in ones for i in (0, 1) for j in (0, 1)}
        check("character along %d" % direction, drawn_dots(0x10 + direction, [1, 3], 0x68), dots_set)


def arc_path(direction, axes, diagonals):
    # The dot after so many axis and diagonal moves from (40, 40).
    axis, diagonal = VECTORS[direction], VECTORS[(direction + 1) % 8]
    if direction % 2 == 1:
        axis, diagonal = diagonal, axis
    return 40 + axes * axis[0] + diagonals * diagonal[0], 40 + axes * axis[1] + diagonals * diagonal[1]


def check_arcs_in_the_plane():
    for direction in range(8):
        # Radius 7, D 6, D2 12, D1 -1. i = 1: D 5, axis; i = 2: D 2, axis;
        # i = 3: D -3, diagonal, D 9, D2 10; i = 4: D 2, axis.
        path = [arc_path(direction, a, d) for a, d in ((0, 0), (1, 0), (2, 0), (2, 1), (3, 1))]
        for dm in range(6):
            check("arc along %d, DM %d" % (direction, dm), drawn_dots(0x20 + direction, [4, 6, 12, -1, dm], 0x6C),
                  set(path[dm:]))
        # 0 is not negative. D 1, D2 4, D1 -1. i = 1: D 0, axis; i = 2: D -3,
        # diagonal, D 1, D2 2; i = 3: D -4, diagonal, D -2, D2 0; i = 4: D1 is
        # -7, D -9, diagonal.
        path = [arc_path(direction, a, d) for a, d in ((0, 0), (1, 0), (1, 1), (1, 2), (1, 3))]
        check("D 0 along %d" % direction, drawn_dots(0x20 + direction, [4, 1, 4, -1, 0], 0x6C), set(path))
        # All wrap. D 0, D2 2000, D1 2000. i = 1: D 2000, -8192, diagonal, D 0,
        # D1 and D2 1FFE; i = 2: D 1FFE, axis, D1 1FFC; i = 3: D 3FFA, -6,
        # diagonal, D 1FF8, D1 1FFA, D2 1FFC; i = 4: D 3FF2, diagonal, D 1FEE,
        # D1 1FF8; i = 5: D 3FE6, diagonal.
        path = [arc_path(direction, a, d) for a, d in ((0, 0), (0, 1), (1, 1), (1, 2), (1, 3), (1, 4))]
        check("wraps along %d" % direction, drawn_dots(0x20 + direction, [5, 0, 0x2000, 0x2000, 0], 0x6C), set(path))
        # D 1FFF, D2 1, D1 3. i = 1: D 2002, diagonal, D 2003, D1 1, D2 -1;
        # i = 2: D 2004, diagonal, D 2003, D1 -1, D2 -3; i = 3: D 2002,
        # diagonal, D 1FFF, D1 -3; i = 4: D 1FFC, axis.
        path = [arc_path(direction, a, d) for a, d in ((0, 0), (0, 1), (0, 2), (0, 3), (1, 3))]
        check("D wraps along %d" % direction, drawn_dots(0x20 + direction, [4, 0x1FFF, 1, 3, 0], 0x6C), set(path))
    # A with another bit, and A under GCHRD.
    for first_byte, start in ((0x28, 0x6C), (0x30, 0x6C), (0x60, 0x6C), (0xA0, 0x6C), (0x20, 0x68)):
        check("no arc by %02X" % first_byte, drawn_dots(first_byte, [4, 6, 12, -1, 0], start), set())


# An arc of D 1, D2 4, D1 -1 along right from word 5, dot 14, pitch 1. Moves:
# right; up-right, up-right (see above): after three of them word 4, dot 1.
ARC_START = "C 47; P 1; C 78; P 8; P 0; C 49; P 5; P 0; P E0; C 23; U 20; C 4C; P 22; P 3; P 0; P 1; P 0; P 4; P 0; P FF; P 3F"
ARC_REST = "1 3 1 4 3FFF %X 22 0 3 0 00000000000000000800000000000000 0000000000000000 000000 0 0 0 0 0 0"


def check_arcs():
    # DM 3 = DC: after FIGD's unit bit 3 is set and EAD stands at the start;
    # the next unit makes the three moves and sets the last dot, by the
    # pattern's bit 3.
    talk("DM = DC", ARC_START + "; P 3; P 0; C 6C; U D; S; D; V 0 8; U 1; S; D; V 0 8; U 1",
         "U 0 A 2; U 0 D 1; S C; D 5 4000 " + ARC_REST % 3 + "; V 0 0 0 0 0 0 0 0; "
         "U 0 1 1; S 4; D 4 2 " + ARC_REST % 3 + "; V 0 0 0 0 2 0 0 0; U 0 0 2")
    # RESET between the two leaves EAD and mask at the start.
    talk("RESET before the first dot", ARC_START + "; P 3; P 0; C 6C; U D; C 0; S; U 5; D; V 0 8",
         "U 0 A 2; U 0 D 1; S 4; U 0 0 2; D 5 4000 " + ARC_REST % 3 + "; V 0 0 0 0 0 0 0 0")
    # DM 4 > DC: FIGD's unit makes the three moves; no figure is in progress.
    talk("DM > DC", ARC_START + "; P 4; P 0; C 6C; U C; S; U 1; S; D; U 1; V 0 8",
         "U 0 A 2; U 0 C 1; S 0; U 0 1 1; S 4; D 4 2 " + ARC_REST % 4 + "; U 0 0 2; V 0 0 0 0 0 0 0 0")
    # DM never sent is 16,383, and not -1.
    talk("DM never sent", ARC_START + "; C 6C; U B; S; D; V 0 8",
         "U 0 A 2; U 0 B 1; S 4; D 4 2 " + ARC_REST % 0x3FFF + "; V 0 0 0 0 0 0 0 0")
    # DC 16,383 and DM never sent: one dot is left. Pitch 0, so each of the
    # 16,383 moves goes right by one dot: from word 0, dot 0 to 3FF, dot 15.
    talk("16,383 moves", "M 400; C 78; P 0; P 80; C 49; P 0; P 0; P 0; C 23; U 20; C 4C; P 22; P FF; P 3F; C 6C; U 5; S; "
         "V 3FF 1; U 1; S; V 3FF 1; D",
         "U 0 8 2; U 0 5 1; S C; V 0; U 0 1 1; S 4; V 8000; D 3FF 8000 0 3FFF 8 8 3FFF 3FFF 22 0 3 0 "
         "00000000000000000080000000000000 0000000000000000 000000 0 0 0 0 0 0")
    # The pattern counts the dots passed over. D 1000 stays positive: 17 moves
    # right. Pattern 0003, DM 2: of the dots 2 to 17 those with the numbers 16
    # and 17 are set. Sixteen units after FIGD's.
    talk("the pattern advances", "C 78; P 3; P 0; C 49; P 0; P 0; P 0; C 23; U 20; C 4C; P 22; P 11; P 0; P 0; P 10; "
         "P 0; P 0; P FF; P 3F; P 2; P 0; C 6C; U D; U 10; V 0 3; S; U 1",
         "U 0 8 2; U 0 D 1; U 0 10 1; V 0 3 0; S 4; U 0 0 2")


def check_reads():
    talk("RDAT words", "W 0 1234; W 1 5678; C 4C; P 2; P 2; P 0; C A0; P 7; U 100; R; R; R; R; R; D",
         "U 0 7 2; R 0 34; R 0 12; R 0 78; R 0 56; R 5 0; "
         "D 2 0 0 2 8 8 3FFF 3FFF 2 0 0 0 %s 0000000000000000 000000 0 0 0 0 1 0" % ("00" * 16))
    talk("a read awaits room", "C 4C; P 2; P 9; P 0; C A0; U 100; S; U 0; R; U 5; R; U 5; S",
         "U 0 D 3; S 3; U 0 0 1; R 0 0; U 0 0 3; R 0 0; U 0 1 2; S 3")
    talk("a read of nothing", "C A0; P 1; U 5; S; R; P 1", "U 0 1 2; S 4; R 5 0; P 4")


def check_refusals():
    good = ["01030000000000000000"]
    cases = [
        ("11", (0, 400), b"", block(0, 1, 1, good), "T B 0 0"),
        ("11", (64, 4097), b"", b"", "T B 0 0"),
        ("11", (255, 1029), b"", b"", "T B 0 0"),
        ("12", (1, 1), b"1234567", b"", "T C 0 0"),
        ("12", (1, 1), bytes(2056), b"", "T C 0 0"),
        ("13", (1, 1), b"", b"", "T D 0 0"),
        ("13", (1, 1), b"", bytes(17 * 512), "T D 0 0"),
        ("14", (1, 1), b"", bytes(512), "T E 0 0"),
        ("15", (1, 1), b"", block(0, 51, 1, []), "T F 0 0"),
        ("15", (1, 1), b"", block(0, 0, 0, []), "T F 0 0"),
        ("15", (1, 1), b"", block(0, 0, 1, [], (509, 1)), "T F 0 0"),
        ("15", (1, 1), b"", block(0, 1, 1, good, (14, 1)), "T F 0 0"),
        ("15", (1, 1), b"", block(0, 0, 0, []) + block(2, 0, 1, []), "T F 1 0"),
        ("16", (1, 1), b"", block(0, 2, 1, good), "T 10 0 1"),
        ("16", (1, 1), b"", block(0, 1, 1, ["01040000000000000000"]), "T 10 0 0"),
        ("17", (1, 8), bytes(8), block(0, 1, 1, ["04000000000001000000"]), "T 11 0 0"),
        ("18", (1, 8), bytes(8), block(0, 1, 1, ["04000000000000000000"]), "T 12 0 0"),
        ("18", (1, 8), bytes(8), block(0, 1, 1, ["04000000000000110000"]), "T 12 0 0"),
        ("19", (1, 8), bytes(8), block(0, 1, 1, ["04000900000000010000"]), "T 13 0 0"),
        ("19", (1, 1), b"", block(0, 1, 1, ["01001000000000000000"]), "T 13 0 0"),
        ("16: spare bytes", (1, 9), b"", block(0, 1, 1, ["05000300030003000100"]), "T 10 0 0"),
        ("16: spare bytes", (1, 9), b"", block(0, 1, 1, ["05000300030003000001"]), "T 10 0 0"),
        ("16: operation 4", (1, 9), b"", block(0, 1, 1, ["05040300030003000000"]), "T 10 0 0"),
        ("16: kind 6", (1, 9), b"", block(0, 1, 1, ["06000300030003000000"]), "T 10 0 0"),
        ("18: radius 0", (1, 9), b"", block(0, 1, 1, ["05000300030000000000"]), "T 12 0 0"),
        ("18: radius 2,001", (1, 9), b"", block(0, 1, 1, ["050003000300D1070000"]), "T 12 0 0"),
        ("19: radius 2,000", (1, 9), b"", block(0, 1, 1, ["050003000300D0070000"]), "T 13 0 0"),
        ("19: left", (1, 9), b"", block(0, 1, 1, ["05000300040004000000"]), "T 13 0 0"),
        ("19: right", (1, 9), b"", block(0, 1, 1, ["05000C00040004000000"]), "T 13 0 0"),
        ("19: above", (1, 9), b"", block(0, 1, 1, ["05000400030004000000"]), "T 13 0 0"),
        ("19: below", (1, 9), b"", block(0, 1, 1, ["05000400050004000000"]), "T 13 0 0"),
        ("20", (1, 9), b"", block(0, 1, 1, ["05000400040004000000"]), "T 14 A3 0"),
        ("20", (1, 9), b"", block(0, 1, 1, ["05000B00040004000000"]), "T 14 A3 0"),
        ("20", (1, 1), b"", block(0, 1, 1, good), "T 14 D 0"),
        ("none", (1, 8), bytes(8), block(0, 0, 1, []), "T 0 2 0 0147 0001"),
    ]
    for what, (p, h), glyphs, sheet, expected in cases:
        bench = Bench()
        bench.picture, bench.glyphs, bench.sheet = Picture(p, h), glyphs, sheet
        check("refusal " + what, bench.answer("T 2"), expected)


def check_language():
    # FNV-1a of the six letters "foobar" is BF9CF968, of nothing 811C9DC5.
    check("digest", digest([0x6F66, 0x626F, 0x7261]), 0xBF9CF968)
    check("digest of nothing", digest([]), 0x811C9DC5)
    for line in ("", " ", "S ", " S", "S 1", "C", "C 100", "C fF", "C  1", "C 0x1", "C 1 2",
                 "W 10 1", "W 0 10000", "V 10 0", "V F 2", "U 100000000", "L 100000000",
                 "Q 1", "B 1", "B 0g", "G 123", "B", "T", "X 1", "c 1", "?", "M", "M G",
                 "G " + "00" * 4097, "B " + "00" * 8705, "U " + "0" * 19998 + "1"):
        check("line %r" % line[:20], Bench().answer(line), "?")
    check("leading zeros", Bench().answer("U " + "0" * 19997 + "1"), "U 0 0 2")
    check("no words", Bench().answer("V F 0"), "V")
    check("no glyphs", Bench().answer("G"), "G 0")


def check_demand_3_by_hand():
    # The worked sheet drawn: dot (17, 2) of a picture 40 wide is bit 1 of
    # word 81. Units: the thirteen entries and the one dot.
    bench = Bench()
    bench.answer("M 4000")
    bench.answer("B " + block(0, 1, 1, ["01031100020000000000"]).hex().upper())
    check("drawn", bench.answer("X"), "X 0 D 0 E")
    check("the dot", bench.answer("V 50 3"), "V 0 2 0")
    # Radius 7 about (7, 7), COMPLEMENT, one word by fifteen lines: 163 entries
    # and 36 dots. Lines 2 and 12 are empty: the gaps.
    bench = Bench()
    bench.picture = Picture(1, 15)
    bench.answer("B " + block(0, 1, 1, ["05010700070007000000"]).hex().upper())
    check("circle drawn", bench.answer("X"), "X 0 A3 0 C7")
    check("circle", bench.answer("V 0 10"),
          "V 3E0 C18 0 2002 2002 4001 4001 4001 4001 4001 2002 2002 0 C18 3E0 0")


def check_wirings():
    # The lengths: O takes any from 16 to 262,144, M the powers of two alone.
    for line, answer in (("O F", "O 2"), ("O 10", "O 0"), ("O 11", "O 0"), ("O 6000", "O 0"), ("O 3FFFF", "O 0"),
                         ("O 40000", "O 0"), ("O 40001", "O 2"), ("O 0", "O 2"), ("O FFFFFFFF", "O 2"),
                         ("M 11", "M 2"), ("M 6000", "M 2"), ("M 3FFFF", "M 2"), ("M 40000", "M 0")):
        check("length: " + line, Bench().answer(line), answer)
    # Refused: all stays as it was. The fresh set is folded, M is, O is open.
    talk("which wiring", "F 108; O 18; F 108; O F; M 18; F 108; V 17 1; C 0; F 108; M 10; F 108; J 108 1; F 108; J 108 0; F 108",
         "F 108 0; F 108 1; O 2; M 2; F 108 1; V 0; F 108 1; F 108 0; F 108 1; F 108 0")
    for line in ("F", "F 107", "F 1080", "F 0108", "F 108 0", "F 10", "J 108", "J 108 2", "J 108 0 0", "J 107 0", "J 0108 1",
                 "J 108 a", "O", "O 10 10", "O g", "O 1a", "O 100000000", "f 108", "o 10", "j 108 0"):
        check("line %r" % line, Bench().answer(line), "?")


# 24,576 words, mask FFFF, DIR right, pitch 0; word 0 is 0F0F, the last 1234.
ODD_BOARD = "O 6000; W 0 F0F; W 5FFF 1234; C 4C; P 2; P 3; P 0; C 49; P %X; P %X; P %X; C 4A; P FF; P FF; U 20; "


def check_open_words():
    # Three words from 5FFE on: 0000, 1234, and FFFF at the length itself. The
    # bytes alike. EAD is two, three words past the end afterwards.
    talk("RDAT over the end", ODD_BOARD % (0xFE, 0x5F, 0) + "C A0; U 20; R; R; R; R; R; R; R",
         "U 0 B 2; U 0 4 2; R 0 0; R 0 0; R 0 34; R 0 12; R 0 FF; R 0 FF; R 5 0")
    talk("low bytes over the end", ODD_BOARD % (0xFF, 0x5F, 0) + "C B0; U 20; R; R; R", "U 0 B 2; U 0 4 2; R 0 34; R 0 FF; R 0 FF")
    talk("high bytes over the end", ODD_BOARD % (0xFF, 0x5F, 0) + "C B8; U 20; R; R; R", "U 0 B 2; U 0 4 2; R 0 12; R 0 FF; R 0 FF")
    # Each operation, two sets: one past the end, one two words past it. Five
    # units (the command and four bytes), EAD moves on, nothing lands.
    for operation in range(4):
        talk("WDAT past the end, operation %d" % operation,
             ODD_BOARD % (0, 0x60, 0) + "C %X; P 0; P FF; P FF; P 0; U 20; V 5FFE 2; V 0 2; C E0; U 9; R; R; R" % (0x20 + operation),
             "U 0 B 2; U 0 5 2; V 0 1234; V F0F 0; U 0 1 2; R 0 2; R 0 60; R 0 0")
    # The last word itself: COMPLEMENT of 1234 with FFFF is EDCB. The second
    # set is past the end.
    talk("the last word", ODD_BOARD % (0xFF, 0x5F, 0) + "C 21; P FF; P FF; P FF; P FF; U 20; V 5FFE 2; V 0 1",
         "U 0 B 2; U 0 5 2; V 0 EDCB; V F0F")
    # EAD wraps at 262,144 and not at the length: from 3FFFF to word 0.
    talk("the wrap to word 0", ODD_BOARD % (0xFF, 0xFF, 3) + "C 21; P FF; P FF; P FF; P FF; U 20; V 0 2; V 5FFF 1",
         "U 0 B 2; U 0 5 2; V F0F0 0; V 1234")
    # Folded wiring of the same address: 3FFFF is the last of 16,384 words.
    talk("folded as ever", "M 4000; W 3FFF 1234; C 4C; P 2; P 1; P 0; C 49; P FF; P FF; P 3; U 20; C A0; U 20; R; R",
         "U 0 8 2; U 0 2 2; R 0 34; R 0 12")


def check_open_figures():
    # Three dots down from word 22, pitch 1, of 24 words: words 22, 23, and one
    # past the end. FIGD's unit and three more.
    start = "O 18; C 23; C 47; P 1; C 78; P FF; P FF; C 49; P %X; P %X; P %X; U 20; C 4C; P %X; P 2; P 0; "
    talk("dots down over the end", start % (0x16, 0, 0x30, 0) + "C 6C; U 5; S; U 2; S; U 1; S; V 14 4; V 0 2",
         "U 0 A 2; U 0 5 1; S C; U 0 2 1; S C; U 0 1 1; S 4; V 0 0 8 8; V 0 0")
    # Three dots up from word 25: two past the end, then the last word.
    talk("dots up over the end", start % (0x19, 0, 0x30, 4) + "C 6C; U 5; U 3; U 1; V 14 4; V 0 2",
         "U 0 A 2; U 0 5 1; U 0 3 1; U 0 0 2; V 0 0 0 8; V 0 0")
    # Right from 3FFFF, dot 15: that dot is lost, the next two lie in word 0.
    talk("dots right over 262,143", start % (0xFF, 0xFF, 0xF3, 2) + "C 6C; U 100; V 0 2; V 16 2", "U 0 A 2; U 0 8 2; V 3 0; V 0 0")
    # Up from word 1: words 1 and 0, then 3FFFF, which is past the end.
    talk("dots up below 0", start % (1, 0, 0, 4) + "C 6C; U 100; V 0 2; V 16 2; C E0; U 1; R; R; R",
         "U 0 A 2; U 0 8 2; V 1 1; V 0 0; U 0 1 1; R 0 FF; R 0 FF; R 0 3")
    # 262,144 words fitted: 3FFFF is the last of them.
    talk("nothing past the end", "O 40000; C 23; C 78; P FF; P FF; C 49; P FF; P FF; P F3; C 4C; P 2; P 1; P 0; C 6C; U 100; "
         "V 3FFFF 1; V 0 1", "U 0 F 2; V 8000; V 1")


def check_wiring_at_each_call():
    # 24 words are no length for folded wiring: each run is refused, whatever
    # its budget, and the rest is not. Put open again it goes on where it was.
    talk("folded and odd", "O 18; J 108 0; U 0; C 6B; U FFFFFFFF; S; D; J 108 1; U 1; U 5",
         "U 2 0 0; U 2 0 0; S 0; D 0 0 0 0 8 8 3FFF 3FFF 0 0 0 0 %s 0000000000000000 000000 0 0 0 0 0 1; U 0 1 1; U 0 0 2" % ("00" * 16))
    # 32 words are for both, and each cycle asks the wiring as it stands: of
    # four dots down from word 31 the second is lost, the third folds to word
    # 1, the fourth is lost.
    talk("put in a figure", "O 20; C 23; C 47; P 1; C 78; P FF; P FF; C 49; P 1F; P 0; P 0; U 20; C 4C; P 0; P 3; P 0; C 6C; U 7; "
         "J 108 0; U 1; J 108 1; U 5; V 0 4; V 1F 1", "U 0 A 2; U 0 7 1; U 0 1 1; U 0 1 2; V 0 1 0 0; V 1")


def check_sheets_on_odd_boards():
    # One word by 17 lines in 17 words: dot (3, 16) is bit 3 of the last word.
    # By 18 lines: dot (3, 17) is lost, and costs as much.
    for lines, record, view in ((17, "01030300100000000000", "V 0 8"), (18, "01030300110000000000", "V 0 0")):
        bench = Bench()
        bench.answer("O 11")
        bench.picture, bench.sheet = Picture(1, lines), block(0, 1, 1, [record])
        check("dot in line %d of 17 words" % lines, [bench.answer(line) for line in ("X", "V F 2", "F 108")],
              ["X 0 D 0 E", view, "F 108 1"])
    # Folded, 17 words: the runs are refused, the entries wait. Of the 24 of
    # two dots sixteen are held: PITCH to the first FIGD, then WDAT, CURS and
    # its first byte. Open again they are taken, and the first dot drawn.
    bench = Bench()
    bench.answer("O 11")
    bench.answer("J 108 0")
    bench.picture, bench.sheet = Picture(1, 17), block(0, 2, 1, ["01030300100000000000", "01030400090000000000"])
    check("X with its runs refused", [bench.answer(line) for line in ("X", "S", "V 10 1", "P 1", "J 108 1", "U 100", "V 10 1", "V 9 1")],
          ["X 0 18 0 0", "S 2", "V 0", "P 3", "J 0", "U 0 11 2", "V 8", "V 0"])
    check("EAD after it", bench.answer("D").split(" ")[1:3], ["9", "8"])


def main():
    check_logic_unit()
    check_steps()
    check_names()
    check_lines()
    check_smallest_directions()
    check_rectangles_and_glyphs()
    check_circles()
    check_circle_entries()
    check_the_listing()
    check_ports()
    check_figures()
    check_characters()
    check_figures_in_the_plane()
    check_arcs_in_the_plane()
    check_arcs()
    check_reads()
    check_refusals()
    check_language()
    check_demand_3_by_hand()
    check_wirings()
    check_open_words()
    check_open_figures()
    check_wiring_at_each_call()
    check_sheets_on_odd_boards()
    check_bit_mapped_work()
    check_cycles_left()
    return summary()


if __name__ == "__main__":
    sys.exit(main())
