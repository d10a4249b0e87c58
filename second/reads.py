"""The reads: RDAT's items, and the bytes that CURD and LPRD give.

A part of the SECOND PROGRAM, written from the paper alone (see chip.py). The
class `Reads` holds the functions of the controller that give bytes; `Chip`
in chip.py is made upon it.
"""

from commands import HIGH_BYTE, LOW_BYTE, transfer_type
from steps import whole_word_move

WRITE_MODE = 0
READ_MODE = 1


class Read:
    """A read in progress: the type of its items and how many are left."""

    def __init__(self, transfer, items):
        self.transfer = transfer
        self.items = items


class Reads:
    """What the controller does to be read."""

    def turn_to_read_mode(self):
        # "RDAT, CURD ... and LPRD ... discard the entries behind them and
        # turn to read mode."
        self.buffer = []
        self.mode = READ_MODE

    def start_rdat(self, byte):
        # "RDAT gives DC items the same way, changing no memory". "... or a
        # read of no items once the mode is turned, changes nothing more and
        # ends in the unit that takes its command."
        self.turn_to_read_mode()
        if self.dc > 0:
            self.read = Read(transfer_type(byte), self.dc)

    def read_item(self):
        # "one item of the read in progress"; word: "low byte first". "Every
        # access follows this" (M-108): past the end it is FFFF.
        word = self.word_met()
        if self.read.transfer != HIGH_BYTE:
            self.buffer.append(word & 0xFF)
        if self.read.transfer != LOW_BYTE:
            self.buffer.append(word >> 8)
        self.ead = whole_word_move(self.ead, self.figs & 7, self.pitch)
        self.read.items -= 1
        if self.read.items == 0:
            self.read = None

    def give_cursor(self):
        # "CURD (EAD in three bytes, mask in two)"; "CURD and LPRD put all
        # their bytes into the emptied buffer in that unit."
        self.turn_to_read_mode()
        self.buffer = [self.ead & 0xFF, self.ead >> 8 & 0xFF, self.ead >> 16,
                       self.mask & 0xFF, self.mask >> 8]

    def give_pen(self):
        # "LPRD (three bytes, clears bit 7)"
        self.turn_to_read_mode()
        self.buffer = [self.pen & 0xFF, self.pen >> 8 & 0xFF, self.pen >> 16]
        self.pen_set = 0
