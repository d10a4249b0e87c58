"""The rows of the coverage table: what the gate's script must reach.

The counts are kept here too; counting.py counts while the second program runs.
"""

import os
import sys
from collections import Counter

HERE = os.path.dirname(os.path.abspath(__file__))
sys.path.insert(0, os.path.join(HERE, os.pardir, "second"))

from bench import OPERATIONS         # noqa: E402
from commands import NAMES           # noqa: E402

DIRECTIONS = ["down", "down-right", "right", "up-right", "up", "up-left", "left", "down-left"]
OPERATION_NAMES = ["REPLACE", "COMPLEMENT", "RESET", "SET"]
TRANSFERS = {0: "word", 2: "low byte", 3: "high byte"}
KINDS = ["dots", "line", "rectangle", "character", "arc"]
MOST_PARAMETERS = {"RESET": 8, "CCHAR": 3, "ZOOM": 1, "CURS": 3, "PITCH": 1, "MASK": 2, "FIGS": 11}
PLACES = ["first", "inner", "last"]
SHEET_KINDS = ["dot", "line", "line of one dot", "diagonal line", "rectangle", "flat rectangle",
               "standing rectangle", "rectangle of one dot", "glyph", "circle"]
MASK_KINDS = ["0000", "one bit", "FFFF", "of other bits"]
MASKS_BY_BITS = {0: MASK_KINDS[0], 1: MASK_KINDS[1], 16: MASK_KINDS[2]}

# When an arc's move is made: before the first dot that it draws, between two
# dots that it draws, or, where it draws none, by FIGD.
WHENS = ["on passed-over dots", "between dots", "in FIGD's unit"]
MOVES = ["axis", "diagonal"]
SIDES = ["left", "right", "top", "bottom"]

# Where an address meets an open memory; in which state a run is refused or the
# wiring put.
WHERES = ["inside", "in the last word", "at the length itself", "further past the end"]
STATES = ["with nothing to do", "with entries waiting", "in a read", "in a figure"]
WIRING_NAMES = ["folded", "open"]

# What WDAT's sets are by sync byte 1 and GD, and the bits of that byte that have
# no part in it.
WORK_KINDS = ["all bits", "bit-mapped"]
OTHER_SYNC_BITS = [7, 6, 4, 3, 2, 0]
DROPPERS = ["WDAT", "RESET", "unknown", "another command"]

# How much of a figure is left where the count is shown; what a count is that is
# put; who refuses a false one, and which lines have no part in it.
LEFT_AT = ["all of it", "some of it", "its last cycle"]
PUT_COUNTS = ["true", "one more", "one less", "0", "other"]
CALLS = ["RESET", "a command", "a parameter", "a read", "the status", "the pen", "a run", "a run of budget 0"]
LINES_THAT_DO_NOT_ASK = ["D", "F", "H", "J", "V", "W", "Q", "G", "Z", "B", "T", "M", "O"]

# Dots of a character by which a program with narrower numbers is told.
PAST_WIDTH = "on past its row's dots modulo 65,536"
PAST_ROWS = "on past its rows modulo 65,536"
PAST_DOTS = "on past its dots modulo 2^32"
PAST_COLUMN = "dot 65,536 of a row"
PAST_ROW = "row 65,536"
PAST_RETURN = "a row of more than 65,536 dots ends"

counts = Counter()


def reached(row, times=1):
    counts[row] += times


def kind_of_mask(mask):
    return MASKS_BY_BITS.get(bin(mask).count("1"), MASK_KINDS[3])


def work_named(c, g, gd):
    return "C %d, G %d, GD %d" % (c, g, gd)


def class_of_command(byte):
    # The row of a command byte.
    name = NAMES[byte]
    if name in ("PRAM", "WDAT", "RDAT", "VSYNC"):
        return "command %s %02X" % (name, byte)
    if name != "unknown":
        return "command %s" % name
    if 0x28 <= byte <= 0x2B:
        return "unknown: WDAT of type 1"
    if 0x20 <= byte <= 0x3F:
        return "unknown: WDAT with bit 2"
    if byte == 0xA8:
        return "unknown: RDAT of type 1"
    if 0xA0 <= byte <= 0xBF:
        return "unknown: RDAT with low bits"
    return "unknown: %X0 to %XF" % (byte >> 4, byte >> 4)


def wide_marks(rows_wanted, width):
    # The places in a character, given its rows and a row's dots, that have a
    # row of their own.
    marks = {}
    if width >= 65536:
        marks[width % 65536] = PAST_WIDTH
    if rows_wanted >= 65536:
        marks[rows_wanted % 65536 * width] = PAST_ROWS
    if rows_wanted * width >= 2 ** 32:
        marks[rows_wanted * width % 2 ** 32] = PAST_DOTS
    if width > 65536:
        marks[65536] = PAST_COLUMN
        marks[width] = PAST_RETURN
    if rows_wanted > 65536:
        marks[65536 * width] = PAST_ROW
    return marks


def rows():
    # Every row that the gate's script must reach, in the order printed.
    table = []
    for byte in range(256):
        row = class_of_command(byte)
        if row not in table:
            table.append(row)
    table += rows_of_parameters() + rows_of_figures() + rows_of_steps()
    table += rows_of_reads() + rows_of_ports() + rows_of_sheets() + rows_of_wirings() + rows_of_sets()
    table += rows_of_counts() + rows_of_false_counts() + rows_of_language()
    return table


def rows_of_parameters():
    table = []
    for name, most in MOST_PARAMETERS.items():
        table += ["parameter %s %d" % (name, number) for number in range(1, most + 1)]
        table.append("parameter %s surplus" % name)
        table += ["cut short: %s after %d" % (name, number) for number in range(0, most)]
    table += ["CURS names dot %d" % dot for dot in range(16)]
    table += ["parameter PRAM kept", "parameter PRAM past 15"]
    table += ["parameter WDAT " + what for what in ("first of a word", "second of a word", "low byte", "high byte")]
    table += ["parameter before any command", "parameter of an unknown byte"]
    table += ["parameter of %s" % name for name in ("VSYNC", "START", "FIGD", "GCHRD")]
    table += ["half word dropped by " + name for name in DROPPERS]
    table += ["WDAT %s %s" % (TRANSFERS[t], o) for t in TRANSFERS for o in OPERATION_NAMES]
    table += ["WDAT moves " + direction for direction in DIRECTIONS]
    return table


def rows_of_figures():
    table = ["%s of type %s" % (name, format(kind, "05b")) for name in ("FIGD", "GCHRD") for kind in range(32)]
    table += ["%s along %s" % (kind, direction) for kind in KINDS for direction in DIRECTIONS]
    table += ["%s by %s" % (kind, operation) for kind in KINDS for operation in OPERATION_NAMES]
    table += ["%s, pattern bit %d" % (kind, bit) for kind in KINDS for bit in (0, 1)]
    table += ["%s %s" % (kind, end) for kind in KINDS for end in ("ends in its last dot", "cut by RESET")]
    table += ["a figure's %s dot at dot %d of a word" % (place, dot) for place in PLACES for dot in range(16)]
    table += ["figure of no dots: " + kind for kind in ("rectangle", "character", "arc")]
    table += ["line: D negative", "line: D zero or more", "line: the sum wraps"]
    table += ["rectangle: D = 0 only", "rectangle: D2 = 0 only", "rectangle: both sides"]
    table += ["character: factor %d" % factor for factor in range(1, 17)]
    table += ["character: " + what for what in ("returns to the row's start", "more than 8 rows",
                                                "more than 8 dots", "more than 2^32 units", PAST_WIDTH,
                                                PAST_ROWS, PAST_DOTS, PAST_COLUMN, PAST_ROW, PAST_RETURN)]
    return table + rows_of_arcs()


def rows_of_arcs():
    table = ["arc: " + what for what in (
        "DM 0", "DM 1", "DM 2 to DC - 1", "DM = DC", "DM = DC + 1", "DM over DC + 1", "DM 16,383 and none left",
        "DC 0", "DC 8,192 or more, DM less", "DM 8,192 or more, a dot left", "DM = DC = 16,383",
        "the first dot past dot 15")]
    table += ["arc: %s along DIR %d %s" % (move, direction, when)
              for move in MOVES for direction in range(8) for when in WHENS]
    table += ["arc: EAD wraps %s %s" % (where, when) for where in ("past 262,143", "below 0") for when in WHENS]
    table += ["arc: " + what for what in ("D is 0 when judged", "D wraps with D1", "D wraps with D2", "D1 wraps", "D2 wraps")]
    table += ["arc: %s %s" % (what, where) for what in ("RESET", "a run ends")
              for where in ("before the first dot, with moves to make", "before the first dot, with none", "between dots")]
    table += ["arc with mask " + mask for mask in MASK_KINDS]
    table += ["FIGD of A and another bit, with dots", "GCHRD of A alone, with dots"]
    return table


def rows_of_steps():
    table = []
    for direction in DIRECTIONS:
        table += ["step %s, no carry" % direction]
        if direction not in ("up", "down"):
            table += ["step %s, carry" % direction]
    table += ["step wraps past 262,143", "step wraps below 0"]
    table += ["cycle with mask " + mask for mask in MASK_KINDS]
    table += ["cycle by " + operation for operation in OPERATION_NAMES]
    table += ["cycle folded", "cycle not folded", "step with pitch 0"]
    return table


def rows_of_reads():
    table = ["RDAT %s along %s" % (TRANSFERS[t], direction) for t in TRANSFERS for direction in DIRECTIONS]
    table += ["RDAT %s %s" % (TRANSFERS[t], what) for t in TRANSFERS
              for what in ("of no items", "completed", "ended by a command", "ended by RESET", "awaits room at 16")]
    table += ["RDAT word awaits room at 15", "RDAT low byte goes on at 15", "RDAT high byte goes on at 15"]
    table += ["RDAT folded"]
    table += ["%s with %s behind it" % (name, what) for name in ("RDAT", "CURD", "LPRD")
              for what in ("entries", "nothing")]
    return table


def rows_of_ports():
    table = ["command queued", "parameter queued", "command in read mode", "command in read mode with 16 held"]
    table += ["refusal 3: command", "refusal 3: parameter", "refusal 4", "refusal 4 with 16 held",
              "refusal 5 in write mode", "refusal 5 in read mode", "refusal 6", "refusal 2", "byte read"]
    table += ["RESET with a full buffer", "RESET in read mode", "RESET in a figure", "RESET with display on"]
    table += ["pen posted", "pen replaced", "LPRD clears bit 7"]
    table += ["status bit %d is %d" % (bit, value) for bit in (7, 3, 2, 1, 0) for value in (0, 1)]
    table += ["run: budget spent", "run: nothing to do", "run: a read awaits room", "run: budget 0",
              "run: budget spent as the work ends", "run: a figure cut", "run: the largest budget",
              "run: goes on in more than 2^32 dots, and is cut"]
    table += ["memory of %d words" % 2 ** power for power in range(4, 19)]
    return table


def rows_of_sheets():
    table = ["T gives %d" % number for number in [0] + list(range(11, 21))]
    table += ["X gives %d" % number for number in [0] + list(range(11, 20))]
    table += ["%d in a later block" % number for number in range(14, 20)]
    table += ["%d in a later record" % number for number in range(16, 20)]
    table += ["11 by P", "11 by H", "11 by P * H", "12 by eights", "12 by size", "13 empty", "13 no blocks", "13 over 16"]
    table += ["15 by " + what for what in ("number", "count", "last", "unused records", "spare bytes")]
    table += ["16 by " + what for what in ("kind", "operation", "a dot's bytes", "a glyph's bytes", "a circle's bytes")]
    table += ["19 by a " + what for what in ("dot", "line", "rectangle", "glyph", "circle")]
    table += rows_of_circles()
    table += ["translated: " + kind for kind in SHEET_KINDS]
    table += ["translated by " + operation for operation in OPERATION_NAMES]
    table += ["line DIR %d" % direction for direction in range(8)]
    table += ["glyph factor %d" % factor for factor in range(1, 17)]
    table += ["sheet: " + what for what in (
        "no figures", "1 block", "2 to 15 blocks", "16 blocks", "a block of 50", "800 figures", "exact room",
        "P 1", "P 255", "H 1", "H 4096", "P * H = 262144", "N = 4095", "a dot in the last column",
        "a dot in the last line", "glyph 255")]
    table += ["X held to the geometry", "X of a picture that does not fit", "X in read mode",
              "X with a figure in progress", "X with entries waiting", "X with a full buffer",
              "X with a half-sent word", "X with a mask not one-hot"]
    table += ["X with an arc " + what for what in ("before its first dot", "between dots")]
    return table


def rows_of_circles():
    table = ["16 by a circle's " + what for what in (
        "byte 8 alone", "byte 9 alone", "operation", "form, 18 as well", "form, 19 as well")]
    table += ["18 by " + what for what in (
        "a factor", "radius 0", "radius 2,001", "a radius over 2,001", "a radius, 19 as well")]
    table += ["19 by a circle " + what for what in ("of radius 2,000", "of 1,024 to 1,999", "of 1 to 1,023")]
    table += ["19 by a circle one dot past the %s alone" % side for side in SIDES]
    table += ["circle at the %s edge" % side for side in SIDES]
    table += ["circle by " + operation for operation in OPERATION_NAMES]
    table += ["circle: " + what for what in (
        "radius 1", "last dots coincide", "last dots side by side", "open", "radius over 255", "radius 1,023")]
    table += ["sheet: " + what for what in ("800 circles", "circles beside other kinds", "over 65,535 entries in exact room",
                                            "over 65,535 entries, one too few")]
    table += ["X of circles held to the geometry"]
    return table


def rows_of_wirings():
    transfers = [TRANSFERS[t] for t in TRANSFERS]
    table = ["open: %s %s" % (kind, where) for kind in KINDS for where in WHERES]
    table += ["open: cycle by %s %s" % (operation, where) for operation in OPERATION_NAMES
              for where in ("in the last word", "past the end")]
    table += ["open: cycle past the end with mask " + mask for mask in MASK_KINDS]
    table += ["open: %s %s %s" % (name, t, where) for name in ("WDAT", "RDAT") for t in transfers for where in WHERES]
    table += ["open: WDAT %s by %s past the end" % (t, operation) for t in transfers for operation in OPERATION_NAMES]
    table += ["open: %s moves %s over the end" % (name, way) for name in ("WDAT", "RDAT") for way in ("out", "in")]
    table += ["open: step %s %s over the end" % (direction, way) for direction in DIRECTIONS for way in ("out", "in")]
    table += ["open: step wraps " + what for what in ("and meets as before", "out over the end", "to a word inside")]
    table += ["refusal 2: a run " + what for what in STATES + ["with budget 0"]]
    table += ["wiring put %s %s" % (wiring, state) for wiring in WIRING_NAMES for state in STATES]
    table += ["wiring put as it stands, " + wiring for wiring in WIRING_NAMES]
    table += ["wiring put %s on a length that it %s" % what for what in (("folded", "refuses"), ("folded", "takes"), ("open", "takes"))]
    table += ["RESET under open wiring" + what for what in ("", ", in a figure", ", in read mode", ", with a full buffer")]
    table += ["%s %s under %s wiring" % (letter, what, wiring) for letter in "MO" for what in ("taken", "refused")
              for wiring in WIRING_NAMES]
    table += ["M refuses a length of open wiring"] + ["O refuses " + what for what in ("15", "262,145", "less", "more")]
    table += ["open memory of %s words" % size for size in ("16", "17", "24,576", "262,143", "262,144")]
    table += ["open memory of a power of two", "open memory of another length", "F 108 gives 0", "F 108 gives 1"]
    return table + rows_of_wired_sheets()


def rows_of_wired_sheets():
    odd = ("", " of odd length")
    table = ["X with its runs refused"]
    table += ["X with its runs refused, " + what for what in STATES[:2] + STATES[3:] + ["in read mode", "with a full buffer"]]
    table += ["X of a picture %s an open memory%s" % (what, which)
              for what in ("that fits exactly", "smaller than", "larger than") for which in odd]
    table += ["X held to the geometry under open wiring" + which for which in odd]
    table += ["? for %s %s" % (letter, what) for letter in "FJ" for what in ("103", "108", "of no request or another")]
    return table


def rows_of_sets():
    transfers = [TRANSFERS[t] for t in TRANSFERS]
    works = [work_named(c, g, gd) for c in (0, 1) for g in (0, 1) for gd in (0, 1)]
    table = ["set with %s: %s, bit 0 is %d" % (work, t, bit) for work in works for t in transfers for bit in (0, 1)]
    table += ["set with %s: word, bit 0 is %d and not in the high byte" % (work, bit) for work in works for bit in (0, 1)]
    table += ["set with %s, older than the last FIGS" % work for work in works[:2]]
    table += ["%s, and bit %d of sync byte 1 is set" % (kind, bit) for kind in WORK_KINDS for bit in OTHER_SYNC_BITS]
    table += ["%s%s" % (kind, what) for kind in WORK_KINDS
              for what in (", and sync byte 2 would say otherwise", " after a set that was not")]
    table += ["bit-mapped: %s by %s, bit 0 is %d" % (t, operation, bit)
              for t in transfers for operation in OPERATION_NAMES for bit in (0, 1)]
    table += ["bit-mapped: mask " + mask for mask in MASK_KINDS]
    table += ["bit-mapped: a set moves " + direction for direction in DIRECTIONS]
    table += ["bit-mapped: %s %s of an open memory" % (t, where) for t in transfers for where in WHERES]
    table += ["bit-mapped: half word dropped by " + name for name in DROPPERS]
    table += ["bit-mapped: " + what for what in KINDS + ["RDAT " + t for t in transfers] + ["X held to the geometry"]]
    return table


def rows_of_counts():
    table = ["left of %s, %s" % (kind, what) for kind in KINDS for what in LEFT_AT]
    table += ["left of a character by %d" % factor for factor in range(1, 17)]
    table += ["left of a character in a later row"]
    table += ["left of an arc, dots passed over, " + what for what in LEFT_AT[:2]]
    table += ["left: %d" % count for count in (2 ** 32 - 1, 2 ** 32, 68715282432)]
    table += ["left shown " + state for state in STATES[:3]]
    table += ["left shown after %s: %s" % (what, kind) for what in ("the last cycle", "RESET in a figure") for kind in KINDS]
    table += ["left shown after refusal %d" % number for number in (1, 2, 3, 5, 6)]
    table += ["left shown after " + what for what in (
        "a WDAT set", "an RDAT item", "FIGD that draws nothing", "GCHRD that draws nothing", "J 108 in a figure")]
    for letter in "MO":
        table += ["%s %s in a figure" % (letter, what) for what in ("taken", "refused")]
        table += ["left shown after %s %s in a figure" % (letter, what) for what in ("taken", "refused")]
    return table


def rows_of_false_counts():
    table = ["count put, %s, %s" % (what, kind) for what in PUT_COUNTS for kind in KINDS]
    table += ["count put, %s, %s" % (what, state) for what in ("true", "one more", "other") for state in STATES[:3]]
    table += ["count put" + what for what in (
        " that is true in 32 bits", ", the largest", " with leading zeros", " that is a character's rows",
        " with an arc's dots passed over")]
    table += ["refusal 1: %s %s" % (call, state) for call in CALLS for state in STATES]
    table += ["refusal 1 before %d" % number for number in (2, 3, 4, 5, 6)]
    table += ["left shown false " + state for state in STATES]
    table += ["X with a false count, " + what for what in STATES[:2] + STATES[3:] + [
        "in read mode", "with a full buffer", "its runs refused by 2 as well"]]
    table += ["with a false count: " + what for what in ["?"] + LINES_THAT_DO_NOT_ASK if what not in ("F", "J")]
    table += ["with a false count: %s %s" % (letter, request) for letter in "FJ" for request in ("103", "108")]
    table += ["with a false count: X of a sheet that is " + what for what in ("accepted", "refused")]
    table += ["%s %s with a false count" % (letter, what) for letter in "MO" for what in ("taken", "refused")]
    table += ["false count healed by J 103"]
    return table


def rows_of_language():
    table = ["line %s" % letter for letter in OPERATIONS]
    table += ["? for %s" % letter for letter in OPERATIONS]
    table += ["? for another line", "? for an empty line", "? for a line too long"]
    return table
