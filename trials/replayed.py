"""A record of the bus, replayed by the second program's chip: what `replay` has to write, by docs/REPLAY.md."""
import os
import re
import sys

sys.path.insert(0, os.path.join(os.path.dirname(os.path.abspath(__file__)), '..', 'second'))
from chip import Chip           # noqa: E402

LARGEST = 0xFFFFFFFF
BUDGET_SPENT = 1
SENTENCES = {3: 'in write mode the buffer holds 16', 4: 'a parameter byte in read mode'}
NO_EVENT = 'no event (C or P with a byte in two hexadecimal digits, U with a decimal number, F, # with a comment)'


def lines_of(data):
    lines = data.split(b'\n')
    return lines if lines[-1] else lines[:-1]


def event_of(line):
    """A letter and what it says, '' for nothing, None for no event."""
    if not line or line.startswith(b'#'):
        return ''
    if len(line) > 80:
        return None
    text = line.rstrip(b' \t\r')
    if not text:
        return ''
    if text == b'F':
        return 'F', 0
    if re.fullmatch(rb'[CP] [0-9A-Fa-f]{2}', text):
        return chr(text[0]), int(text[2:], 16)
    if re.fullmatch(rb'U [0-9]+', text) and int(text[2:]) <= LARGEST:
        return 'U', int(text[2:])
    return None


class Replay:
    """The chip, and what is told of it."""

    def __init__(self, across, down, words):
        self.across, self.down, self.chip = across, down, Chip(words)
        self.pictures, self.log = [], []
        self.taken = self.refused = self.units = self.unknown = 0
        self.by_units = False

    def run(self, budget):
        done, reason = self.chip.run(budget)
        self.units += done
        return reason

    def write(self, letter, byte, number):
        port = self.chip.command_port if letter == 'C' else self.chip.parameter_port
        refusal = port(byte)
        if refusal:
            self.refused += 1
            self.log.append(f'line {number}: refused {refusal}: {SENTENCES[refusal]}')
            return
        self.taken += 1
        while not self.by_units and self.run(LARGEST) == BUDGET_SPENT:
            pass

    def picture(self):
        memory = self.chip.memory[:self.across * self.down]
        dots = bytes(int(f'{half:08b}'[::-1], 2) for word in memory for half in (word % 256, word // 256))
        self.pictures.append(b'P4\n%d %d\n' % (16 * self.across, self.down) + dots)

    def line(self, number, line):
        event = event_of(line)
        if event is None:
            self.unknown += 1
            self.log.append(f'line {number}: {NO_EVENT}')
        elif event and event[0] == 'F':
            self.picture()
        elif event and event[0] == 'U':
            self.by_units = True
            self.run(event[1])
        elif event:
            self.write(*event, number)


def replayed(across, down, words, data):
    """What goes to standard output, and what to standard error."""
    r = Replay(across, down, words)
    for number, line in enumerate(lines_of(data), 1):
        r.line(number, line)
    if not r.pictures:
        r.picture()
    r.log.append(f'bytes taken {r.taken}, refused {r.refused}; units {r.units}; pictures {len(r.pictures)}; '
                 f'lines without an event {r.unknown}')
    return b''.join(r.pictures), ''.join(f'replay: {said}\n' for said in r.log).encode()
