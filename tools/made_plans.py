"""Inputs made up from a seed, as crates/cases/src/made.rt makes them up: written again, draw for draw."""

WORD = 2**64

SHORT = (
    (10, 12, 15, 16, 20, 24, 30, 40, 48, 60, 80, 120),
    (15, 16, 18, 20, 24, 30, 36, 45, 48, 60, 72, 90),
    (20, 21, 24, 28, 35, 36, 40, 45, 56, 63, 72, 84),
    (30, 35, 42, 48, 60, 63, 70, 80, 84, 105, 112, 144),
)
MIDDLE = (55, 65, 77, 91, 99, 104, 112, 117, 130, 132, 143, 144)
LONG = (110, 117, 125, 133, 144, 153, 175, 189, 203, 209, 216, 253)


class Random:
    """Xorshift of 64 bits."""

    def __init__(self, seed):
        self.state = seed * 0x9E3779B97F4A7C15 % WORD | 1

    def bits(self):
        self.state ^= self.state << 13 & WORD - 1
        self.state ^= self.state >> 7
        self.state ^= self.state << 17 & WORD - 1
        return self.state

    def up_to(self, most):
        return self.bits() % (most + 1)

    def one_of(self, choices):
        return choices[self.up_to(len(choices) - 1)]


class Outline:
    """What the tasks of a plan have in common."""

    def __init__(self, random):
        self.periods = periods(random)
        self.last_task = random.up_to(15)
        self.share = (200 + random.up_to(899)) // (self.last_task + 1)
        self.reach = random.up_to(2)
        self.tightness = random.up_to(9)
        self.by_deadline = random.up_to(2) > 0

    def priority(self, random, deadline):
        return max(255 - deadline, 0) if self.by_deadline else random.up_to(3)

    def row(self, random):
        period = random.one_of(self.periods)
        work = min(period, 1 + random.up_to(period * self.share // 500))
        offset = random.up_to(period * self.reach)
        deadline = period - random.up_to((period - work) * self.tightness // 16)
        priority = self.priority(random, deadline)
        fixed_delay = random.up_to(3)
        evicting = random.bits() & random.bits() & random.bits()
        useful = evicting & random.bits()
        return f"{offset:05x}{period:05x}{deadline:05x}{work:05x}{priority:02x}{fixed_delay:03x}{useful:016x}{evicting:016x}0"


def periods(random):
    choice = random.up_to(511)
    if choice <= 1:
        return LONG
    if choice <= 4:
        return MIDDLE
    return random.one_of(SHORT)


def whole(random):
    order = random.one_of("FE") + random.one_of("-N") + random.one_of("ZAUL") + "\n"
    reload = random.up_to(3) * (1 + random.up_to(2))
    outline = Outline(random)
    rows = "".join(outline.row(random) for _ in range(outline.last_task + 1))
    return order.encode() + bytes.fromhex(f"1{outline.last_task:x}{4 * reload:02x}{rows}")


def damaged(random, data):
    kind = random.up_to(3)
    place = random.up_to(len(data) - 1)
    bit = random.up_to(7)
    if kind == 0:
        return data[:place]
    if kind == 1:
        return data + b"\0"
    turned = bytearray(data)
    turned[place] ^= 1 << bit
    return bytes(turned)


def made_input(random):
    data = whole(random)
    return damaged(random, data) if random.up_to(7) == 0 else data


def made_inputs(seed, count):
    random = Random(seed)
    return [made_input(random) for _ in range(count)]
