"""The calls: the controller's entries as the host has them, an unsound set refused.

A part of the SECOND PROGRAM, written from the paper alone (see chip.py). "a set
whose count is false is unsound (1)" (M-103), for every entry that takes a
register set, RESET's and the status's too, before any other refusal. A refused
call alters nothing. The class `Calls` holds the calls; `Chip` in chip.py, which
has the entries themselves, is made upon it.
"""

from wiring import lawful_length

ACCEPTED = 0
UNSOUND = 1                  # "register set unsound"
WRONG_LENGTH = 2             # "memory length wrong"


class Calls:
    """Each call asks first whether the set is sound. "the set given, 0": what else it says is 0."""

    def command_call(self, byte):
        return self.command_port(byte) if self.sound() else UNSOUND

    def parameter_call(self, byte):
        return self.parameter_port(byte) if self.sound() else UNSOUND

    def read_call(self):
        return self.read_byte() if self.sound() else (UNSOUND, 0)

    def status_call(self):
        # The status has no number of refusal to give.
        return self.status() if self.sound() else 0

    def pen_call(self, address):
        return self.post_pen(address) if self.sound() else UNSOUND

    def run_call(self, budget):
        # "Refusals: 2 depends on the wiring": at each call, on the wiring as
        # it stands. A refused run does no unit and has no reason: both are 0.
        if not self.sound():
            return UNSOUND, 0, 0
        if not lawful_length(len(self.memory), self.wiring):
            return WRONG_LENGTH, 0, 0
        return (ACCEPTED, *self.run(budget))
