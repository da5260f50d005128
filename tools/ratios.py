"""The ratio of a clock, as the key `clocks` of a partition has it, from the rows in which the clock has an edge."""
from fractions import Fraction

MOST = 65535


def ratio(low, high):
    """The ratio [m, d] with the least d that is at least `low` and below `high`."""
    for below in range(1, MOST + 1):
        above = max(1, -(-low.numerator * below // low.denominator))
        if above < high * below:
            return [above, below]
    return None


class Ratio:
    """What the rows up to now say of one clock: its ratio is at least `low` and below `high`."""

    def __init__(self, name):
        self.name, self.rows, self.edges = name, 0, 0
        self.low, self.high = Fraction(0), Fraction(2)
        self.between, self.wrong = [], ""

    def take(self, time, times):
        """The next row ends at this time, and has edges of the clock at these times."""
        self.between += [(self.rows, one) for one in times if one != time]
        before = self.low, self.high
        self.rows, self.edges = self.rows + 1, self.edges + len(times)
        self.low = max(self.low, Fraction(self.edges, self.rows))
        self.high = min(self.high, Fraction(self.edges + 1, self.rows))
        if not self.wrong and len(times) > 1:
            self.wrong = f"{self.name} has {len(times)} edges in row {self.rows - 1}: the fastest clock comes first"
        elif not self.wrong and self.low >= self.high:
            last = self.rows - 1
            self.wrong = f"{self.name} fits no ratio: up to row {last - 1} its edges fit {ratio(*before)}, and row {last} has {'an' if times else 'no'} edge"


    def told(self):
        """What the reader should know."""
        if self.wrong:
            yield self.wrong
        if self.between:
            row, time = self.between[0]
            yield f"{self.name} has {len(self.between)} edge{'s' if len(self.between) > 1 else ''} inside a row, the first in row {row} at time {time}: golden makes them at the row's end"
