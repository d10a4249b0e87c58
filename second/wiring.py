"""The wiring: which word of the display memory an address meets, if any.

A part of the SECOND PROGRAM, written from the paper alone (see chip.py): 01's
paragraph "Numbers" and request M-108. The class `Wiring` holds the functions
of the controller that meet the memory; `Chip` in chip.py is made upon it.
"""

# "A register-set field says folded or open wiring."
FOLDED = 0
OPEN = 1

POWERS_OF_TWO = [2 ** power for power in range(4, 19)]


def lawful_length(length, wiring):
    # "Folded is as now": "its length is a power of two, 16 to 262,144."
    # "Open takes any length from 16 to 262,144".
    if wiring == OPEN:
        return 16 <= length <= 262144
    return length in POWERS_OF_TWO


class Wiring:
    """How the controller meets its memory. EAD has wrapped at 262,144 when the wiring is asked."""

    def place_met(self):
        # Folded: "the word met is EAD modulo the length." Open: "an address
        # past the end meets nothing", which is None here.
        if self.wiring == FOLDED:
            return self.ead % len(self.memory)
        if self.ead < len(self.memory):
            return self.ead
        return None

    def word_met(self):
        # "a word at or past the length reads FFFF"
        place = self.place_met()
        if place is None:
            return 0xFFFF
        return self.memory[place]

    def write_word(self, word):
        # "and a write there goes nowhere, its cycle still counted."
        place = self.place_met()
        if place is not None:
            self.memory[place] = word
