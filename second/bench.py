"""The bench: a script on standard input, one answer line per line out.

A part of the SECOND PROGRAM. It speaks the script language of the page
"The bench" and drives the controller (chip.py), the translator (sheet.py)
and the geometry (plane.py), all written from the paper alone.

    python3 bench.py < script > answers

When a sheet is drawn (`X`) from a sound controller in write mode, with an
empty buffer, nothing being drawn and a picture that fits, the memory afterwards
is the one that the geometry paints, and an `assert` holds the controller to it.
Under open wiring a larger picture is held to it too, cut off at the length.
"""

import re
import sys

from chip import BUDGET_SPENT, WRITE_MODE, Chip
from plane import paint
from sheet import Picture, Refused, fits, read_sheet, translate
from wiring import FOLDED, OPEN, lawful_length

LONGEST_LINE = 20000
LARGEST = 0xFFFFFFFF
MOST_GLYPH_BYTES = 4096
MOST_SHEET_BYTES = 17 * 512

DIGITS = re.compile("[0-9A-F]+")
BYTES = re.compile("(?:[0-9A-F][0-9A-F])+")


class Malformed(Exception):
    """The line is not of the language: it is answered `?`."""


def number(text, largest=None):
    # "uppercase hexadecimal with no prefix ... (on input leading zeros are
    # taken)"
    if DIGITS.fullmatch(text) is None:
        raise Malformed
    value = int(text, 16)
    if largest is not None and value > largest:
        raise Malformed
    return value


def some_bytes(text):
    # "two digits a byte"
    if BYTES.fullmatch(text) is None:
        raise Malformed
    return bytes.fromhex(text)


def field_of(request):
    # "In `F`, `J` the first field is the request's number, written as it is
    # printed". The other requests that have a field have not landed.
    if request not in FIELDS:
        raise Malformed
    return FIELDS[request]


def two_digits(values):
    return "".join("%02X" % value for value in values)


def digest(memory):
    # "FNV-1a, 32 bits, over every word, low byte first". A zero word only
    # multiplies twice, so the zero words of a run are counted first.
    value = 0x811C9DC5
    zeros = 0
    for word in memory:
        if word == 0:
            zeros += 1
            continue
        if zeros > 0:
            value = value * pow(0x01000193, 2 * zeros, 2 ** 32) % 2 ** 32
            zeros = 0
        value = (value ^ (word & 0xFF)) * 0x01000193 & 0xFFFFFFFF
        value = (value ^ (word >> 8)) * 0x01000193 & 0xFFFFFFFF
    return value * pow(0x01000193, 2 * zeros, 2 ** 32) % 2 ** 32


class Bench:

    def __init__(self, chip_class=Chip):
        # "Before the first line: fresh registers, a memory of 16 zero words,
        # picture 28 190 ..., no glyphs, an empty sheet."
        self.chip_class = chip_class
        self.chip = chip_class(16)
        self.picture = Picture(0x28, 0x190)
        self.glyphs = b""
        self.sheet = b""

    def answer(self, line):
        # "anything else | nothing | `?`"
        if len(line) > LONGEST_LINE:
            return "?"
        letter, *fields = line.split(" ")
        operation = OPERATIONS.get(letter)
        if operation is None:
            return "?"
        fewest, most, act = operation
        if not fewest <= len(fields) <= most:
            return "?"
        try:
            return act(self, *fields)
        except Malformed:
            return "?"

    # ---------------------------------------------------- the controller

    def new_memory(self, length):
        # "`M n` gives folded wiring and takes folded wiring's lengths."
        length = number(length)
        if not lawful_length(length, FOLDED):
            return "M 2"
        self.chip = self.chip_class(length)
        return "M 0"

    def new_open_memory(self, length):
        # "fresh registers but for the wiring, which is open, and a memory of
        # n words (n up to FFFFFFFF), all zero"
        length = number(length, LARGEST)
        if not lawful_length(length, OPEN):
            return "O 2"
        self.chip = self.chip_class(length, OPEN)
        return "O 0"

    def show_field(self, request):
        show, _ = field_of(request)
        return "F %s %X" % (request, show(self))

    def put_field(self, request, value):
        # "`D`, `J`, `M` and the fields in `F` do not ask whether the set is
        # sound". The rest of the set stays.
        _, put = field_of(request)
        put(self, value)
        return "J 0"

    def show_left(self):
        # "`F 103` | the count of cycles left | `F 103 left` (up to nine
        # digits)": the count as it is kept, true or not.
        return self.chip.left

    def put_left(self, value):
        # "the count in the register set becomes v (up to FFFFFFFF), true or
        # not"
        self.chip.left = number(value, LARGEST)

    def show_wiring(self):
        # "`F 108` | the wiring": "0 folded, 1 open"
        return self.chip.wiring

    def put_wiring(self, value):
        # "`J 108 v` | the wiring becomes v (0 or 1); the memory stays, of
        # whatever length"
        self.chip.wiring = number(value, 1)

    def set_word(self, place, value):
        place = number(place, len(self.chip.memory) - 1)
        self.chip.memory[place] = number(value, 0xFFFF)
        return "W 0"

    def command_byte(self, byte):
        return "C %X" % self.chip.command_call(number(byte, 0xFF))

    def parameter_byte(self, byte):
        return "P %X" % self.chip.parameter_call(number(byte, 0xFF))

    def read_byte(self):
        return "R %X %X" % self.chip.read_call()

    def status(self):
        return "S %X" % self.chip.status_call()

    def light_pen(self, address):
        return "L %X" % self.chip.pen_call(number(address, LARGEST))

    def run(self, budget):
        return "U %X %X %X" % self.chip.run_call(number(budget, LARGEST))

    def registers(self):
        # "D ead mask pitch dc d d2 d1 dm figs gd op zoom pram sync cchar
        # vsync display pen penset mode held"
        c = self.chip
        return "D %X %X %X %X %X %X %X %X %X %X %X %X %s %s %s %X %X %X %X %X %X" % (
            c.ead, c.mask, c.pitch, c.dc, c.d, c.d2, c.d1, c.dm, c.figs, c.gd,
            c.operation, c.zoom, two_digits(c.pram), two_digits(c.sync),
            two_digits(c.cchar), c.vsync, c.display, c.pen, c.pen_set, c.mode,
            len(c.buffer))

    def view(self, place, count):
        # "a below the length, a + n at most the length"
        memory = self.chip.memory
        place = number(place, len(memory) - 1)
        count = number(count, len(memory) - place)
        return " ".join(["V"] + ["%X" % word for word in memory[place:place + count]])

    def memory_digest(self):
        return "H %08X" % digest(self.chip.memory)

    # -------------------------------------------------------- the sheets

    def picture_size(self, words, lines):
        self.picture = Picture(number(words, LARGEST), number(lines, LARGEST))
        return "Q 0"

    def glyph_table(self, text=None):
        glyphs = b"" if text is None else some_bytes(text)
        if len(glyphs) > MOST_GLYPH_BYTES:
            raise Malformed
        self.glyphs = glyphs
        return "G 0"

    def empty_sheet(self):
        self.sheet = b""
        return "Z 0"

    def add_to_sheet(self, text):
        longer = self.sheet + some_bytes(text)
        if len(longer) > MOST_SHEET_BYTES:
            raise Malformed
        self.sheet = longer
        return "B 0"

    def figures_and_entries(self):
        figures = read_sheet(self.picture, self.glyphs, self.sheet)
        return figures, translate(self.picture, self.glyphs, figures)

    def translation(self, room):
        room = number(room, LARGEST)
        try:
            _, entries = self.figures_and_entries()
            fits(room, entries)
        except Refused as refused:
            return "T %X %X %X" % refused.answer
        return " ".join(["T 0 %X 0" % len(entries)] + ["%04X" % entry for entry in entries])

    def draw_sheet(self):
        # "the sheet is translated with room enough, and if it is accepted
        # each entry is sent and the controller run until idle after it"
        try:
            figures, entries = self.figures_and_entries()
        except Refused as refused:
            return "X %X %X %X 0" % refused.answer
        if self.may_be_held_to_the_geometry():
            painted = self.painted(figures)
            units = self.send_all(entries)
            assert self.chip.memory == painted, "controller and geometry differ"
            self.chip.memory = painted
        else:
            units = self.send_all(entries)
        return "X 0 %X 0 %X" % (len(entries), units)

    def may_be_held_to_the_geometry(self):
        # Sound, write mode, buffer empty, nothing being drawn, no run refused,
        # and the picture fits. Open wiring loses what does not fit, no more.
        chip = self.chip
        return (chip.sound() and chip.mode == WRITE_MODE and not chip.buffer and chip.figure is None
                and lawful_length(len(chip.memory), chip.wiring)
                and (chip.wiring == OPEN or self.picture_size_in_words() <= len(chip.memory)))

    def picture_size_in_words(self):
        return self.picture.words * self.picture.lines

    def painted(self, figures):
        # The memory as the geometry paints it. "an address past the end meets
        # nothing": a larger picture is painted whole and cut at the length.
        length = len(self.chip.memory)
        memory = self.chip.memory + [0] * (self.picture_size_in_words() - length)
        paint(memory, self.picture, self.glyphs, figures)
        return memory[:length]

    def send_all(self, entries):
        # "an entry that is refused is passed over". The ports do not look at
        # the memory's length: where it is wrong the runs alone are refused,
        # the entries wait, and from the seventeenth on they get 3. An unsound
        # set: "each entry is refused and passed over, each run refused".
        units = 0
        for entry in entries:
            if entry >= 256:
                self.chip.command_call(entry - 256)
            else:
                self.chip.parameter_call(entry)
            units += self.run_until_idle()
        return units

    def run_until_idle(self):
        # A read that awaits room stops the run too, and so does a refusal.
        units = 0
        reason = BUDGET_SPENT
        while reason == BUDGET_SPENT:
            _, done, reason = self.chip.run_call(LARGEST)
            units += done
        return units


# For each letter: the fewest and the most fields after it, and what it does.
OPERATIONS = {
    "M": (1, 1, Bench.new_memory),
    "O": (1, 1, Bench.new_open_memory),
    "W": (2, 2, Bench.set_word),
    "C": (1, 1, Bench.command_byte),
    "P": (1, 1, Bench.parameter_byte),
    "R": (0, 0, Bench.read_byte),
    "S": (0, 0, Bench.status),
    "L": (1, 1, Bench.light_pen),
    "U": (1, 1, Bench.run),
    "D": (0, 0, Bench.registers),
    "V": (2, 2, Bench.view),
    "H": (0, 0, Bench.memory_digest),
    "Q": (2, 2, Bench.picture_size),
    "G": (0, 1, Bench.glyph_table),
    "Z": (0, 0, Bench.empty_sheet),
    "B": (1, 1, Bench.add_to_sheet),
    "T": (1, 1, Bench.translation),
    "X": (0, 0, Bench.draw_sheet),
    "F": (1, 1, Bench.show_field),
    "J": (2, 2, Bench.put_field),
}

# For each request that adds a field to the register set: what shows it, what puts it.
FIELDS = {
    "103": (Bench.show_left, Bench.put_left),
    "108": (Bench.show_wiring, Bench.put_wiring),
}


def main():
    # Latin-1 takes every byte, so a strange byte only makes its line `?`.
    script = sys.stdin.buffer.read().decode("latin-1")
    if script.endswith("\n"):
        script = script[:-1]
    elif not script:
        return
    bench = Bench()
    for line in script.split("\n"):
        sys.stdout.write(bench.answer(line) + "\n")


if __name__ == "__main__":
    main()
