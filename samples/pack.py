"""The card format, for the scripts that make samples."""


class Bits:
    """Bit fields, most significant bit first."""

    def __init__(self):
        self.value, self.width = 0, 0

    def put(self, value, width):
        self.value = self.value << width | value & (1 << width) - 1
        self.width += width

    def bytes(self):
        assert self.width % 8 == 0
        return self.value.to_bytes(self.width // 8, "big")


def card(steps, bounds, edition=1, spare=0):
    """The card of a job. A bound is (from, to, lower, upper), with None for an absent end."""
    b = Bits()
    b.put(edition, 4)
    b.put(steps - 1, 6)
    b.put(len(bounds), 10)
    b.put(spare, 4)
    for start, end, lower, upper in bounds:
        b.put(start, 6)
        b.put(end, 6)
        b.put(lower is not None, 1)
        b.put(upper is not None, 1)
        b.put(lower or 0, 21)
        b.put(upper or 0, 21)
    return b.bytes()
