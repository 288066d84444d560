"""What was compared, and how often it wasn't as wanted."""


class Tally:
    """How many comparisons there were, and how many failed."""

    def __init__(self):
        self.compared = 0
        self.failures = 0

    def compare(self, what, got, wanted):
        """Compares what came with what was wanted, and tells where they differ."""
        self.compared += 1
        if got != wanted:
            self.failures += 1
            print(f"{what}\n  got    {shortened(got)}\n  wanted {shortened(wanted)}", flush=True)


def shortened(value):
    """A value as it is printed, without the middle of a long one."""
    shown = repr(value)
    return shown if len(shown) <= 2000 else f"{shown[:1000]} .. {shown[-1000:]}"
