"""Plans, put together as strings of bits."""

WIDTHS = dict(offset=20, period=20, deadline=20, work=20, priority=8, fixed_delay=12, useful=64, evicting=64, spare=4)


def lines(*members):
    """A set of cache lines: line 0 is the first bit."""
    return int("".join("1" if l in members else "0" for l in range(64)), 2)


def row(**values):
    base = dict(offset=0, period=10, deadline=10, work=1, priority=0, fixed_delay=0, useful=0, evicting=0, spare=0)
    return "".join(f"{ {**base, **values}[name]:0{width}b}" for name, width in WIDTHS.items())


def plan(*rows, revision=1, count=None, reload=1, spare=0):
    n = len(rows) if count is None else count
    bits = f"{revision:04b}{n - 1:04b}{reload:06b}{spare:02b}" + "".join(rows)
    return bytes(int(bits[i:i + 8], 2) for i in range(0, len(bits), 8))
