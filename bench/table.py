"""The lines of the table, and whether a ratio was above its bound."""


# the width of the column of names
WIDTH = 80


class Table:
    def __init__(self):
        self.is_well = True
        print(f"{'what':{WIDTH}} {'measured':>12} {'beside it':>12} {'ratio':>7} {'bound':>6}")

    def above(self, number, bound):
        """The mark of a number above its bound, which makes the run fail."""
        if bound is None or number <= bound:
            return ""
        self.is_well = False
        return "  ABOVE"

    def line(self, what, measured, beside, bound=None):
        """A line of seconds, compared with others."""
        ratio = measured / beside
        shown = "-" if bound is None else f"{bound:.1f}" if bound >= 1 else f"{bound:.2f}"
        times = f"{measured * 1e3:9.2f} ms {beside * 1e3:9.2f} ms"
        print(f"{what:{WIDTH}} {times} {ratio:7.2f} {shown:>6}{self.above(ratio, bound)}", flush=True)

    def step(self, what, measured, beside, bound):
        """A line of what one of many steps takes, in seconds, compared with others."""
        ratio = measured / beside
        times = f"{measured * 1e9:9.2f} ns {beside * 1e9:9.2f} ns"
        print(f"{what:{WIDTH}} {times} {ratio:7.2f} {bound:6.1f}{self.above(ratio, bound)}", flush=True)

    def numbers(self, what, measured, beside, bound):
        """A line of instructions, compared with others."""
        ratio = measured / beside
        numbers = f"{measured / 1e6:9.1f} M {beside / 1e6:9.1f} M"
        print(f"{what:{WIDTH}} {numbers} {ratio:7.2f} {bound:>6}{self.above(ratio, bound)}", flush=True)

    def gain(self, what, gained, beside, least=None):
        """A line of how many times as much is done in the same time."""
        ratio = gained / beside
        mark = ""
        if least is not None and ratio < least:
            self.is_well, mark = False, "  BELOW"
        shown = "-" if least is None else f"{least:.1f}"
        print(f"{what:{WIDTH}} {gained:12.2f} {beside:12.2f} {ratio:7.2f} {shown:>6}{mark}", flush=True)

    def count(self, what, each, bound):
        """A line of instructions or bytes that are bounded by a number."""
        print(f"{what:{WIDTH}} {each:12.0f} {'':12} {'':7} {bound:6}{self.above(each, bound)}", flush=True)
