"""The cycles left: what the count in the register set has to be.

A part of the SECOND PROGRAM, written from the paper alone (see chip.py): request
M-103. The count itself, `left`, is kept by those who draw: start_figure in
figures.py sets it, figure_cycle takes one from it, RESET clears it. Here stands
what it must equal, which does not look at it. The class `Left` holds the two
functions of the controller that ask; `Chip` in chip.py is made upon it.
"""


class Left:
    """The cycles still to come, and whether the count says so."""

    def cycles_to_come(self):
        # "the cycles still to come by the figure's definition, and is 0 when
        # no figure is in progress". Reads and queued commands are no figure.
        if self.figure is None:
            return 0
        return all_cycles(self.figure) - self.figure.place

    def sound(self):
        # "a set whose count is false is unsound (1)". No port and no line of
        # the bench can make anything else of the set unsound.
        return self.left == self.cycles_to_come()


def all_cycles(figure):
    # From the copies of DC to DM that the figure works on, in plain numbers.
    if figure.kind == "rectangle":
        # "four sides ... of D, D2, D, D2 dots"
        return figure.d + figure.d2 + figure.d + figure.d2
    if figure.kind == "character":
        # "(DC + 1)·g rows of D·g dots": up to 68,715,282,432.
        rows, width = (figure.dc + 1) * figure.factor, figure.d * figure.factor
        return rows * width
    if figure.kind == "arc":
        # "for i = 0 to DC, dots with i below DM are passed over without a
        # cycle"
        return figure.dc + 1 - figure.dm
    # "DC + 1 dots", along DIR or of a line.
    return figure.dc + 1
