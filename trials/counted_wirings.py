"""What request M-108 adds to the counts: where a cycle or a read meets an open memory, who puts the wiring, what is refused."""

import os
import sys

HERE = os.path.dirname(os.path.abspath(__file__))
sys.path.insert(0, os.path.join(HERE, os.pardir, "second"))

from reads import READ_MODE          # noqa: E402
from rows import DIRECTIONS, OPERATION_NAMES, STATES, TRANSFERS, WHERES, WIRING_NAMES, reached  # noqa: E402
from wiring import OPEN, lawful_length  # noqa: E402


def where_met(chip):
    # The number in WHERES of the place that EAD meets; None if it folds.
    if chip.wiring != OPEN:
        return None
    last = len(chip.memory) - 1
    return 0 if chip.ead < last else chip.ead - last + 1 if chip.ead <= last + 1 else 3


def count_meeting(where, kind, operation, mask, times):
    # A cycle under open wiring; kind is a figure's, or None for a WDAT set.
    if kind is not None:
        reached("open: %s %s" % (kind, WHERES[where]), times)
    if where >= 1:
        reached("open: cycle by %s %s" % (OPERATION_NAMES[operation], "past the end" if where >= 2 else WHERES[where]), times)
    if where >= 2:
        reached("open: cycle past the end with mask " + mask, times)


def count_transfer(chip, name, transfer):
    # A WDAT set or an RDAT item, before it is done.
    where = where_met(chip)
    if where is not None:
        reached("open: %s %s %s" % (name, TRANSFERS[transfer], WHERES[where]))
        if name == "WDAT" and where >= 2:
            reached("open: WDAT %s by %s past the end" % (TRANSFERS[transfer], OPERATION_NAMES[chip.operation]))


def count_move(chip, name, before):
    # A whole-word move from the EAD `before`, made.
    if chip.wiring == OPEN:
        over = over_the_end(before, chip.ead, len(chip.memory))
        if over is not None:
            reached("open: %s moves %s" % (name, over))


def over_the_end(before, after, length):
    # Which way from one address to the next lies over the end, if it does.
    if (before < length) == (after < length):
        return None
    return "out over the end" if before < length else "in over the end"


def count_crossing(times, direction, over, wraps):
    # A figure's step over the end or the wrap, under open wiring.
    if over is not None:
        reached("open: step %s %s" % (DIRECTIONS[direction], over), times)
    if wraps:
        what = {None: "and meets as before", "out over the end": "out over the end", "in over the end": "to a word inside"}[over]
        reached("open: step wraps " + what, times)


def state_of(chip):
    if chip.figure is not None:
        return STATES[3]
    if chip.read is not None:
        return STATES[2]
    return STATES[1] if chip.buffer and chip.mode != READ_MODE else STATES[0]


def count_run_call(chip, budget, number):
    if number == 2:
        reached("refusal 2: a run %s" % state_of(chip))
        if budget == 0:
            reached("refusal 2: a run with budget 0")


def count_put(chip, before):
    # J 108, done; `before` is the wiring before it.
    if chip.figure is not None:
        chip.lately.add("J 108 in a figure")
    reached("wiring put %s %s" % (WIRING_NAMES[chip.wiring], state_of(chip)))
    if before == chip.wiring:
        reached("wiring put as it stands, " + WIRING_NAMES[before])
    lawful = lawful_length(len(chip.memory), chip.wiring)
    reached("wiring put %s on a length that it %s" % (WIRING_NAMES[chip.wiring], "takes" if lawful else "refuses"))


def count_new_memory(letter, text, answer, before, length):
    # M or O; `before` is the wiring before it, `length` the memory's after it.
    reached("%s %s under %s wiring" % (letter, "refused" if answer.endswith("2") else "taken", WIRING_NAMES[before]))
    wanted = int(text, 16)
    if letter == "M" and answer == "M 2" and lawful_length(wanted, OPEN):
        reached("M refuses a length of open wiring")
    if answer == "O 2":
        reached("O refuses " + ("15" if wanted == 15 else "262,145" if wanted == 262145 else "less" if wanted < 15 else "more"))
    if answer == "O 0":
        size = {16: "16", 17: "17", 24576: "24,576", 262143: "262,143", 262144: "262,144"}.get(length)
        if size is not None:
            reached("open memory of %s words" % size)
        reached("open memory of " + ("a power of two" if lawful_length(length, 0) else "another length"))


def count_x_of_wirings(bench):
    # An accepted sheet is about to be drawn.
    chip = bench.chip
    if not chip.sound():
        return
    if not lawful_length(len(chip.memory), chip.wiring):
        reached("X with its runs refused")
        reached("X with its runs refused, " + ("in read mode" if chip.mode == READ_MODE else state_of(chip)))
        if len(chip.buffer) == 16 and chip.mode != READ_MODE:
            reached("X with its runs refused, with a full buffer")
        return
    if chip.wiring == OPEN:
        size = bench.picture_size_in_words() - len(chip.memory)
        odd = "" if lawful_length(len(chip.memory), 0) else " of odd length"
        reached("X of a picture %s an open memory%s" % (
            "that fits exactly" if size == 0 else "smaller than" if size < 0 else "larger than", odd))
        if bench.may_be_held_to_the_geometry():
            reached("X held to the geometry under open wiring" + odd)


def count_malformed_field(letter, fields):
    if letter in ("F", "J") and fields:
        reached("? for %s %s" % (letter, fields[0] if fields[0] in ("103", "108") else "of no request or another"))
