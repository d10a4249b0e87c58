"""The writes: WDAT's sets, and which bits of them are the pattern.

A part of the SECOND PROGRAM, written from the paper alone (see chip.py); the
sentences about bit-mapped work are those of request M-101. The class `Writes`
holds the functions of the controller that write what is sent; `Chip` in
chip.py is made upon it.
"""

from commands import HIGH_BYTE, LOW_BYTE, transfer_type
from steps import whole_word_move


class Writes:
    """What the controller does with WDAT's parameters."""

    def take_wdat(self, number, byte):
        # "WDAT uses all sixteen bits as the pattern; in a byte transfer the
        # other byte is zero."
        transfer = transfer_type(self.command)
        if transfer == LOW_BYTE:
            self.write_set(self.pattern_of_set(byte, byte, 0x00FF))
        elif transfer == HIGH_BYTE:
            self.write_set(self.pattern_of_set(byte << 8, byte, 0xFF00))
        elif self.half_word is None:
            self.half_word = byte
        else:
            low = self.half_word
            self.half_word = None
            self.write_set(self.pattern_of_set(low | byte << 8, low, 0xFFFF))

    def pattern_of_set(self, all_bits, byte, filled):
        # "bit 0 of a word's low byte fills all sixteen pattern bits; bit 0 of
        # a single byte fills that byte, the other being zero. Coded character
        # work keeps all bits". `byte` is the low byte or the single one.
        if not self.bit_mapped():
            return all_bits
        return filled if byte & 1 else 0x0000

    def bit_mapped(self):
        # "When sync byte 1 has C = 0 and G = 1, or C = G = 0 with GD set".
        # Sync byte 1 is the first of the eight, 0 0 C F I D G S (002).
        c, g = self.sync[0] >> 5 & 1, self.sync[0] >> 1 & 1
        if c == 0 and g == 1:
            return True
        return c == 0 and g == 0 and self.gd == 1

    def write_set(self, pattern):
        # "A WDAT set that becomes complete makes its cycle in the unit that
        # takes its last byte." "After each set EAD moves a whole word along
        # DIR, mask unchanged."
        self.memory_cycle(pattern)
        self.ead = whole_word_move(self.ead, self.figs & 7, self.pitch)
