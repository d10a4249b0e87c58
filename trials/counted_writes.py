"""What request M-101 adds to the counts: which WDAT sets are bit-mapped, by what, and what is met there."""

from counted_wirings import where_met
from rows import (
    DIRECTIONS, OPERATION_NAMES, OTHER_SYNC_BITS, TRANSFERS, WHERES, WORK_KINDS, kind_of_mask, reached, work_named)


def kind_of_work(chip):
    return WORK_KINDS[chip.bit_mapped()]


def count_set(chip, all_bits, byte, older_gd):
    # A set that completes, before its cycle: the bits sent and the byte whose
    # bit 0 may count. `older_gd`: the last FIGS had no DC's high byte.
    transfer = TRANSFERS[chip.command >> 3 & 3]
    work = work_named(chip.sync[0] >> 5 & 1, chip.sync[0] >> 1 & 1, chip.gd)
    reached("set with %s: %s, bit 0 is %d" % (work, transfer, byte & 1))
    if transfer == "word" and (all_bits >> 8 ^ byte) & 1:
        reached("set with %s: word, bit 0 is %d and not in the high byte" % (work, byte & 1))
    if work.startswith("C 0, G 0") and older_gd:
        reached("set with %s, older than the last FIGS" % work)
    count_sync_bytes(chip)
    if chip.bit_mapped():
        count_bit_mapped(chip, transfer, byte & 1)


def count_sync_bytes(chip):
    kind = kind_of_work(chip)
    for bit in OTHER_SYNC_BITS:
        if chip.sync[0] >> bit & 1:
            reached("%s, and bit %d of sync byte 1 is set" % (kind, bit))
    by_the_second = {0x00: chip.gd == 1, 0x02: True}.get(chip.sync[1] & 0x22, False)
    if by_the_second != chip.bit_mapped():
        reached("%s, and sync byte 2 would say otherwise" % kind)


def count_bit_mapped(chip, transfer, bit):
    reached("bit-mapped: %s by %s, bit 0 is %d" % (transfer, OPERATION_NAMES[chip.operation], bit))
    reached("bit-mapped: mask " + kind_of_mask(chip.mask))
    reached("bit-mapped: a set moves " + DIRECTIONS[chip.figs & 7])
    where = where_met(chip)
    if where is not None:
        reached("bit-mapped: %s %s of an open memory" % (transfer, WHERES[where]))


def count_change(before, after):
    # The kinds of work of two sets, one after the other.
    if before not in (None, after):
        reached("%s after a set that was not" % after)


def count_beside(chip, what):
    # What else is done while sets would be bit-mapped.
    if chip.bit_mapped():
        reached("bit-mapped: " + what)
