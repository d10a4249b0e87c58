"""What the scripts of records share: a recorder's bytes for the ports, in the form of `listing`, on a plane of so many words a line."""


def line(words):
    print(words)


def command(byte, *parameters):
    line(f'C {byte:02X}')
    for parameter in parameters:
        line(f'P {parameter:02X}')


def both(number):
    """The two bytes of a number of 14 bits."""
    return number % 16384 % 256, number % 16384 // 256


def cursor(words, x, y):
    address = y * words + x // 16
    command(0x49, address % 256, address // 256, x % 16 * 16)


def rectangle(words, x, y, x1, y1):
    cursor(words, x, y)
    command(0x78, 0xFF, 0xFF)
    high, wide = y1 - y, x1 - x
    command(0x4C, 0x40, *both(3), *both(high), *both(wide), *both(-1), *both(high))
    command(0x6C)
