"""What request M-103 adds to the counts: where the count of cycles left is shown or put, and who refuses a false one."""

import os
import sys

HERE = os.path.dirname(os.path.abspath(__file__))
sys.path.insert(0, os.path.join(HERE, os.pardir, "second"))

from chip import Chip                # noqa: E402
from counted_wirings import count_run_call, state_of  # noqa: E402
from reads import READ_MODE          # noqa: E402
from rows import LEFT_AT, LINES_THAT_DO_NOT_ASK, reached  # noqa: E402
from wiring import lawful_length     # noqa: E402


class CountedCalls(Chip):
    """The calls, counted. `lately` is what came since F 103 was asked last or a figure began."""

    by_x = False                 # whether the calls are those of X

    def fresh(self):
        Chip.fresh(self)
        self.lately = set()

    def command_call(self, byte):
        other = 3 if byte != 0 and self.mode != READ_MODE and len(self.buffer) == 16 else 0
        return self.counted("RESET" if byte == 0 else "a command", Chip.command_call(self, byte), other)

    def parameter_call(self, byte):
        other = 4 if self.mode == READ_MODE else 3 if len(self.buffer) == 16 else 0
        return self.counted("a parameter", Chip.parameter_call(self, byte), other)

    def read_call(self):
        other = 0 if self.mode == READ_MODE and self.buffer else 5
        number, byte = Chip.read_call(self)
        return self.counted("a read", number, other), byte

    def status_call(self):
        if not self.sound():
            self.counted("the status", 1, 0)
        return Chip.status_call(self)

    def pen_call(self, address):
        return self.counted("the pen", Chip.pen_call(self, address), 6 if address >= 262144 else 0)

    def run_call(self, budget):
        other = 0 if lawful_length(len(self.memory), self.wiring) else 2
        answer = Chip.run_call(self, budget)
        count_run_call(self, budget, answer[0])
        self.counted("a run of budget 0" if budget == 0 else "a run", answer[0], other)
        return answer

    def counted(self, call, number, other):
        # What a call gave, and what it would have given to a sound set.
        if number == 1 and not self.by_x:
            reached("refusal 1: %s %s" % (call, state_of(self)))
            if other:
                reached("refusal 1 before %d" % other)
        if number and self.figure is not None:
            self.lately.add("refusal %d" % number)
        return number


def count_shown(chip):
    # F 103: the count in the state that it is shown in, true.
    left, figure = chip.left, chip.figure
    if not chip.sound():
        reached("left shown false " + state_of(chip))
        return
    for what in chip.lately:
        reached("left shown after " + what)
    chip.lately.clear()
    if figure is None:
        reached("left shown %s" % state_of(chip))
        return
    reached("left of %s, %s" % (figure.kind, LEFT_AT[0 if figure.place == 0 else 2 if left == 1 else 1]))
    if figure.kind == "character":
        reached("left of a character by %d" % figure.factor)
        if figure.place >= figure.d * figure.factor:
            reached("left of a character in a later row")
    if figure.kind == "arc" and figure.passed > 0:
        reached("left of an arc, dots passed over, " + LEFT_AT[0 if figure.place == 0 else 1])
    if left in (2 ** 32 - 1, 2 ** 32, 68715282432):
        reached("left: %d" % left)


def count_left_put(chip, text, before):
    # J 103, done; `before` is the count before it.
    left, true = chip.left, chip.cycles_to_come()
    what = {true: "true", true + 1: "one more", true - 1: "one less"}.get(left, "0" if left == 0 else "other")
    reached("count put, %s, %s" % (what, chip.figure.kind if chip.figure is not None else state_of(chip)))
    if left == true and before != true:
        reached("false count healed by J 103")
    if left != true and left == true % 2 ** 32:
        reached("count put that is true in 32 bits")
    if left == 0xFFFFFFFF:
        reached("count put, the largest")
    if text != "%X" % left:
        reached("count put with leading zeros")
    if chip.figure is not None and chip.figure.kind == "character" and left != true:
        if left == (chip.figure.dc + 1) * chip.figure.factor:
            reached("count put that is a character's rows")
    if chip.figure is not None and chip.figure.passed > 0 and left == true + chip.figure.passed:
        reached("count put with an arc's dots passed over")


def count_anew(letter, chip, answer, sound, figure):
    # M or O, done; whether the set was sound before it, and in a figure.
    what = "taken" if answer.endswith("0") else "refused"
    if figure:
        reached("%s %s in a figure" % (letter, what))
        chip.lately.add("%s %s in a figure" % (letter, what))
    if not sound:
        reached("%s %s with a false count" % (letter, what))


def count_x_of_counts(bench):
    # An accepted sheet is about to be drawn.
    chip = bench.chip
    if not chip.sound():
        reached("X with a false count, " + ("in read mode" if chip.mode == READ_MODE else state_of(chip)))
        if len(chip.buffer) == 16 and chip.mode != READ_MODE:
            reached("X with a false count, with a full buffer")
        if not lawful_length(len(chip.memory), chip.wiring):
            reached("X with a false count, its runs refused by 2 as well")


def count_other_lines(letter, fields, answer, sound):
    # With a false count: what does not ask whether the set is sound.
    if sound:
        return
    if answer == "?":
        reached("with a false count: ?")
    elif letter in LINES_THAT_DO_NOT_ASK:
        reached("with a false count: " + " ".join([letter] + fields[:1] if letter in "FJ" else [letter]))
    elif letter == "X":
        reached("with a false count: X of a sheet that is " + ("accepted" if answer.startswith("X 0") else "refused"))
