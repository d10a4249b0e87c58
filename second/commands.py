"""The command bytes: their names, types and the parts of their parameters.

A part of the SECOND PROGRAM, written from the paper alone (see chip.py).
"""

WORD, LOW_BYTE, HIGH_BYTE = 0, 2, 3      # "Types: ... 1 is invalid."


def make_names():
    # "RESET 00, VSYNC 6E/6F, CCHAR 4B, START 6B, ZOOM 46, ..."
    names = ["unknown"] * 256
    names[0x00] = "RESET"
    names[0x6E] = names[0x6F] = "VSYNC"
    names[0x4B] = "CCHAR"
    names[0x6B] = "START"
    names[0x46] = "ZOOM"
    names[0x49] = "CURS"
    for address in range(16):
        names[0x70 + address] = "PRAM"
    names[0x47] = "PITCH"
    names[0x4A] = "MASK"
    names[0x4C] = "FIGS"
    names[0x6C] = "FIGD"
    names[0x68] = "GCHRD"
    names[0xE0] = "CURD"
    names[0xC0] = "LPRD"
    for transfer in (WORD, LOW_BYTE, HIGH_BYTE):
        for operation in range(4):
            names[0x20 + 8 * transfer + operation] = "WDAT"
        names[0xA0 + 8 * transfer] = "RDAT"
    return names


NAMES = make_names()


def transfer_type(command):
    # "WDAT 20 + 8·type + operation, RDAT A0 + 8·type."
    return command // 8 % 4


def with_low_byte(number, byte):
    # "low byte first": the low byte arrives, the rest stays.
    return (number & ~0xFF) | byte


def with_high_byte(number, byte):
    # The high byte of a 14-bit number arrives; its bits 7 and 6 are unused.
    return (number & 0xFF) | (byte & 0x3F) << 8
