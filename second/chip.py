"""The controller: the uPD7220 as document 01 describes it.

This is a part of the SECOND PROGRAM. It was written from the paper alone
(document 01, requests M-100, M-101, M-103 and M-108 of document 02, NEC's sheet
002, the readings) and never from the proved program, so that the two can be held
against each other. It is plain and slow on purpose. Above or in each function
stands the sentence of the paper that it puts into Python; names are 01's
words.

A `Chip` holds the register set and the display memory. Its entries are
`command_port`, `parameter_port`, `read_byte`, `status`, `post_pen` and `run`; the
host has them by the calls of calls.py, which refuse an unsound set and, for a
run, a wrong length of the memory.
"""

from calls import ACCEPTED, Calls
from commands import NAMES, WORD, with_high_byte, with_low_byte
from figures import Figures
from left import Left
from reads import READ_MODE, WRITE_MODE, Reads
from steps import logic_unit
from wiring import FOLDED, Wiring
from writes import Writes

FOURTEEN_BITS = 0x3FFF       # "DC, D, D2, D1, DM 14 bits."
BUFFER_SIZE = 16             # "the 16-entry buffer"

# The numbers of refusal that a port can give to a sound set.
BUFFER_FULL = 3              # "write mode and buffer holds 16, RESET excepted"
PARAMETER_IN_READ_MODE = 4   # "parameter byte in read mode"
NO_BYTE = 5                  # "read with no byte to give"
PEN_TOO_LARGE = 6            # "pen address 262,144 or more"

# What a run says: "it says which".
BUDGET_SPENT = 1
NOTHING_TO_DO = 2
READ_AWAITS_ROOM = 3


# ---------------------------------------------------------------- the chip

class Chip(Calls, Figures, Left, Reads, Writes, Wiring):

    def __init__(self, length, wiring=FOLDED):
        self.memory = [0] * length
        self.fresh()
        self.wiring = wiring

    def fresh(self):
        # "Fresh: all zero, write mode, except D = D2 = 8, D1 = DM = -1."
        self.ead = self.mask = self.pitch = 0
        self.figs = self.gd = self.operation = self.zoom = 0
        self.pram = [0] * 16
        self.sync = [0] * 8
        self.cchar = [0] * 3
        self.vsync = self.display = 0
        self.pen = self.pen_set = 0
        self.mode = WRITE_MODE
        self.buffer = []          # (command mark, byte); in read mode bytes
        self.command = None       # none yet: parameters are ignored
        self.taken = 0            # parameters taken since the command
        self.half_word = None     # the low byte of a half-sent WDAT word
        self.figure = None
        self.left = 0             # cycles of the figure that are still to come
        self.read = None
        self.wiring = FOLDED      # 0: no port changes it, RESET keeps it
        self.fresh_figure_numbers()

    def fresh_figure_numbers(self):
        # "Taking the FIGS command byte first gives DC, D, D2, D1 and DM
        # their fresh values; type, DIR and GD stay."
        self.dc = 0
        self.d = 8
        self.d2 = 8
        self.d1 = FOURTEEN_BITS
        self.dm = FOURTEEN_BITS

    # ------------------------------------------------------------- ports

    def command_port(self, byte):
        # "A byte to the command port is queued with a command mark".
        if byte == 0x00:
            self.reset()
            return ACCEPTED
        if self.mode == READ_MODE:
            self.turn_to_write_mode()
        if len(self.buffer) == BUFFER_SIZE:
            return BUFFER_FULL
        self.buffer.append((True, byte))
        return ACCEPTED

    def turn_to_write_mode(self):
        # "Another command byte in read mode first discards all read data,
        # ends the read and turns to write mode."
        self.buffer = []
        self.read = None
        self.mode = WRITE_MODE

    def reset(self):
        # "RESET acts at the write itself, even when the buffer is full:
        # buffer emptied, write mode, figure or read ended where it stands,
        # display off; other registers kept; parameters that follow it load
        # the eight sync bytes."
        self.buffer = []
        self.mode = WRITE_MODE
        self.figure = None
        self.left = 0             # "Every entry keeps it true, RESET too"
        self.read = None
        self.display = 0
        self.begin_command(0x00)

    def parameter_port(self, byte):
        # "... to the other port without."
        if self.mode == READ_MODE:
            return PARAMETER_IN_READ_MODE
        if len(self.buffer) == BUFFER_SIZE:
            return BUFFER_FULL
        self.buffer.append((False, byte))
        return ACCEPTED

    def read_byte(self):
        # "Reading a byte takes the oldest read byte."
        if self.mode != READ_MODE or not self.buffer:
            return NO_BYTE, 0
        return ACCEPTED, self.buffer.pop(0)

    def status(self):
        # "Status: bit 7 light pen, 3 figure in progress, 2 buffer holds
        # nothing, 1 holds 16, 0 read mode and a byte held."
        value = 0
        if self.pen_set:
            value += 128
        if self.figure is not None:
            value += 8
        if len(self.buffer) == 0:
            value += 4
        if len(self.buffer) == BUFFER_SIZE:
            value += 2
        if self.mode == READ_MODE and self.buffer:
            value += 1
        return value

    def post_pen(self, address):
        # "The host may post an 18-bit light-pen address: it replaces the
        # last and sets bit 7."
        if address >= 262144:
            return PEN_TOO_LARGE
        self.pen = address
        self.pen_set = 1
        return ACCEPTED

    # ------------------------------------------------------------- units

    def run(self, budget):
        # "A run does units until its 32-bit budget is spent, nothing is in
        # progress or, in write mode, queued, or a read awaits room; it says
        # which, the first in this order if several hold, and reports the
        # number of units done."
        done = 0
        while True:
            if done == budget:
                return done, BUDGET_SPENT
            if self.nothing_to_do():
                return done, NOTHING_TO_DO
            if self.read_awaits_room():
                return done, READ_AWAITS_ROOM
            self.unit()
            done += 1

    def nothing_to_do(self):
        # "nothing is in progress or, in write mode, queued"
        if self.figure is not None or self.read is not None:
            return False
        return self.mode != WRITE_MODE or not self.buffer

    def read_awaits_room(self):
        return self.read is not None and not self.item_fits()

    def item_fits(self):
        # "if its one or two bytes fit"
        size = 2 if self.read.transfer == WORD else 1
        return len(self.buffer) + size <= BUFFER_SIZE

    def unit(self):
        # "A unit is the first of these that applies: one cycle of the figure
        # in progress; one item of the read in progress if its one or two
        # bytes fit; in write mode, one entry taken from the buffer."
        if self.figure is not None:
            self.figure_cycle()
        elif self.read is not None:
            self.read_item()
        else:
            self.take_entry()

    def take_entry(self):
        is_command, byte = self.buffer.pop(0)
        if is_command:
            self.take_command(byte)
        else:
            self.take_parameter(byte)

    def memory_cycle(self, pattern):
        # One cycle reads the word met, combines and writes it. "Every access
        # follows this" (M-108): wiring.py has which word is met.
        word = self.word_met()
        self.write_word(logic_unit(word, self.mask, pattern, self.operation))

    # ---------------------------------------------------------- commands

    def begin_command(self, byte):
        # "The receipt of a command byte ... marks the end of any previous
        # operation" (002): a half-sent WDAT word is dropped too.
        self.command = byte
        self.taken = 0
        self.half_word = None

    def take_command(self, byte):
        # "Any other byte, or an invalid type, ends the previous command and
        # swallows its own parameters."
        self.begin_command(byte)
        name = NAMES[byte]
        if name == "RESET":
            self.reset()
        elif name == "VSYNC":
            self.vsync = byte & 1
        elif name == "START":
            self.display = 1
        elif name == "FIGS":
            self.fresh_figure_numbers()
        elif name == "WDAT":
            # "WDAT's command byte sets the operation for later figures."
            self.operation = byte & 3
        elif name == "FIGD":
            self.start_figd()
        elif name == "GCHRD":
            self.start_gchrd()
        elif name == "RDAT":
            self.start_rdat(byte)
        elif name == "CURD":
            self.give_cursor()
        elif name == "LPRD":
            self.give_pen()

    def take_parameter(self, byte):
        # "Parameter bytes follow 002's layouts and take effect singly as
        # they are taken; surplus ones, and those before any command, are
        # ignored, PRAM past address 15 also."
        if self.command is None:
            return
        self.taken += 1
        load = PARAMETERS.get(NAMES[self.command])
        if load is not None:
            load(self, self.taken, byte)

    # Each `take_...` below gets the parameter's number, 1 for the first.

    def take_reset(self, number, byte):
        # "parameters that follow it load the eight sync bytes." They are
        # stored; the first is asked by WDAT's sets (writes.py).
        if number <= 8:
            self.sync[number - 1] = byte

    def take_cchar(self, number, byte):
        # "... cursor-shape bytes are stored, not acted on"
        if number <= 3:
            self.cchar[number - 1] = byte

    def take_zoom(self, number, byte):
        if number == 1:
            self.zoom = byte

    def take_curs(self, number, byte):
        # "CURS byte 3: bits 7-4 dot address n, making the mask 2^n; bits 1-0
        # EAD's top."
        if number == 1:
            self.ead = (self.ead & 0x3FF00) | byte
        elif number == 2:
            self.ead = (self.ead & 0x300FF) | byte << 8
        elif number == 3:
            self.ead = (self.ead & 0x0FFFF) | (byte & 3) << 16
            self.mask = 2 ** (byte >> 4)

    def take_pram(self, number, byte):
        # "PRAM 70 + address"; bytes go to rising addresses.
        address = (self.command & 15) + number - 1
        if address <= 15:
            self.pram[address] = byte

    def take_pitch(self, number, byte):
        # "Pitch 8 bits; 0 stays 0."
        if number == 1:
            self.pitch = byte

    def take_mask(self, number, byte):
        if number == 1:
            self.mask = (self.mask & 0xFF00) | byte
        elif number == 2:
            self.mask = (self.mask & 0x00FF) | byte << 8

    def take_figs(self, number, byte):
        # "FIGS byte 1: bits 7 SL, 6 R, 5 A, 4 GC, 3 L, 2-0 DIR; then DC (GD
        # is bit 6 of its high byte), D, D2, D1, DM, low byte first."
        if number == 1:
            self.figs = byte
        elif number == 2:
            self.dc = with_low_byte(self.dc, byte)
        elif number == 3:
            self.dc = with_high_byte(self.dc, byte)
            self.gd = byte >> 6 & 1
        elif number == 4:
            self.d = with_low_byte(self.d, byte)
        elif number == 5:
            self.d = with_high_byte(self.d, byte)
        elif number == 6:
            self.d2 = with_low_byte(self.d2, byte)
        elif number == 7:
            self.d2 = with_high_byte(self.d2, byte)
        elif number == 8:
            self.d1 = with_low_byte(self.d1, byte)
        elif number == 9:
            self.d1 = with_high_byte(self.d1, byte)
        elif number == 10:
            self.dm = with_low_byte(self.dm, byte)
        elif number == 11:
            self.dm = with_high_byte(self.dm, byte)


# Which function loads the parameters of which command; the other commands
# have none, so theirs are surplus.
PARAMETERS = {
    "RESET": Chip.take_reset,
    "CCHAR": Chip.take_cchar,
    "ZOOM": Chip.take_zoom,
    "CURS": Chip.take_curs,
    "PRAM": Chip.take_pram,
    "PITCH": Chip.take_pitch,
    "MASK": Chip.take_mask,
    "FIGS": Chip.take_figs,
    "WDAT": Chip.take_wdat,
}
