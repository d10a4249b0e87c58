"""The logic unit, the steps in eight directions and the whole-word move.

A part of the SECOND PROGRAM, written from the paper alone (see chip.py). The
sentences of document 01 stand above what they became.
"""

EAD_SIZE = 262144            # "EAD has 18 bits and wraps modulo 262,144"

# "Directions 0 to 7: down, down-right, right, up-right, up, up-left, left,
# down-left." 1 is down or right, -1 is up or left.
VERTICAL = (1, 1, 0, -1, -1, -1, 0, 1)
SIDEWAYS = (0, 1, 1, 1, 0, -1, -1, -1)


def logic_unit(word, mask, pattern, operation):
    # "Logic unit, in bits where the mask is 1: 0 REPLACE takes the pattern
    # bit; where the pattern bit is 1 also, 1 COMPLEMENT flips, 2 RESET
    # clears, 3 SET sets. Other bits stay."
    if operation == 0:
        return (word & ~mask) | (pattern & mask)
    chosen = mask & pattern
    if operation == 1:
        return word ^ chosen
    if operation == 2:
        return word & ~chosen
    return word | chosen


def rotate_left(mask):
    return (mask << 1 | mask >> 15) & 0xFFFF


def rotate_right(mask):
    return (mask >> 1 | mask << 15) & 0xFFFF


def step(ead, mask, direction, pitch):
    # "Down adds the pitch, up subtracts it."
    ead += VERTICAL[direction] * pitch
    sideways = SIDEWAYS[direction]
    if sideways == 1:
        # "With a right part: mask bit 15 set adds 1 to EAD, and the mask
        # rotates left."
        if mask & 0x8000:
            ead += 1
        mask = rotate_left(mask)
    elif sideways == -1:
        # "With a left part: mask bit 0 set subtracts 1, and the mask rotates
        # right."
        if mask & 0x0001:
            ead -= 1
        mask = rotate_right(mask)
    return ead % EAD_SIZE, mask


def whole_word_move(ead, direction, pitch):
    # "A whole-word move adds or subtracts 1 regardless of the mask."
    ead += VERTICAL[direction] * pitch + SIDEWAYS[direction]
    return ead % EAD_SIZE
