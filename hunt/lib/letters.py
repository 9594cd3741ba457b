"""Letters as bytes, read by docs/FORMATS.md alone: what a letter is read as, or its first fault.

As a command it takes a letter of each kind, changes each byte to eight values, one at a time, and
prints all answers in their order as one number. `cam_test_letters` expects that number."""

VERSION, NODES, MOST = 2, 8, 1_000_000_000
VALUES = (0, 1, 2, 3, 6, 8, 9, 255)
KINDS = ("letter", "Short", "BadTag", "BadNumber", "Order", "Rest")

NAME = bytes.fromhex("0101 00000001 00000001")
OTHER = bytes.fromhex("0202 00000003 00000001 08 00000001 3b9aca00")
NUMBER = bytes.fromhex("00000001")
BODIES = (
    b"\x01" + NAME + bytes.fromhex("01 01 00000001"),  # Start
    # Calls: Write and Take
    b"\x02" + NAME + NUMBER + bytes.fromhex("00 02 0000000000000005 00000001 01 01 00000001"),
    b"\x02" + NAME + NUMBER + bytes.fromhex("3f 06 00000001 00"),
    b"\x03" + NAME + NUMBER + bytes.fromhex("02 0000000000000102"),  # Answer: Value
    b"\x03" + NAME + NUMBER + b"\x04" + OTHER,  # Answer: Busy
    b"\x03" + NAME + NUMBER + b"\x05",  # Answer: Missed
    b"\x04" + NAME + bytes.fromhex("ffffffffffffffff 02 01 00000001 08 00000002"),  # Finish
    b"\x05" + OTHER,  # Quit
    b"\x06" + NAME + NUMBER,  # Prepare
    b"\x07" + NAME + NUMBER + b"\x01",  # Vote
    b"\x08" + NAME,  # Query
    b"\x09",  # News
)
HEAD = bytes.fromhex("02 01 00000001 02 0000000000000000 0000000000000000 00 00000000 00000000")


class Fault(Exception):
    """The first fault of the bytes, and its place."""

    def __init__(self, kind, place):
        super().__init__(kind, place)
        self.kind, self.place = kind, place


class Reader:
    """Reads from the left, up to the first fault."""

    def __init__(self, data):
        self.data, self.at = data, 0

    def number(self, size):
        if self.at + size > len(self.data):
            raise Fault("Short", len(self.data))
        found = int.from_bytes(self.data[self.at : self.at + size], "big")
        self.at += size
        return found

    def ranged(self, size, least, most):
        begin = self.at
        found = self.number(size)
        if not least <= found <= most:
            raise Fault("BadNumber", begin)
        return found

    def tag(self, *known):
        begin = self.at
        found = self.number(1)
        if found not in known:
            raise Fault("BadTag", begin)
        return found

    def node(self):
        return self.ranged(1, 1, NODES)

    def count(self):
        return self.ranged(4, 1, MOST)

    def name(self):
        parts = self.ranged(1, 1, NODES)
        return [(self.node(), self.count(), self.count()) for _ in range(parts)]

    def family(self):
        self.ranged(1, 1, 1)
        return self.node(), self.count(), self.count()

    def counts(self, above):
        last = 0
        for _ in range(self.ranged(1, 0, NODES)):
            begin = self.at
            node = self.node()
            if node <= last:
                raise Fault("Order", begin)
            last = node
            self.ranged(4, above + 1, MOST)

    def names(self, with_dependencies):
        last = []
        for _ in range(self.number(4)):
            begin = self.at
            name = self.name()
            if name <= last:
                raise Fault("Order", begin)
            last = name
            if with_dependencies:
                self.counts(0)

    def operation(self):
        if self.tag(1, 2, 3, 4, 5, 6, 7) in (2, 3, 5, 7):
            self.number(8)

    def reply(self):
        tag = self.tag(1, 2, 3, 4, 5, 6)
        if tag == 2:
            self.number(8)
        elif tag == 4:
            self.name()

    def body(self):
        tag = self.tag(1, 2, 3, 4, 5, 6, 7, 8, 9)
        if tag in (1, 2, 3, 4, 5):
            self.name()
        elif tag in (6, 7, 8):
            self.family()
        if tag == 1:
            self.counts(0)
        elif tag == 2:
            self.count()
            self.ranged(1, 0, 63)
            self.operation()
            self.count()
            self.counts(0)
        elif tag == 3:
            self.count()
            self.reply()
        elif tag == 4:
            self.number(8)
            self.counts(0)
        elif tag in (6, 7):
            self.count()
        if tag == 7:
            self.ranged(1, 0, 1)

    def letter(self):
        self.tag(VERSION)
        self.node()
        self.count()
        self.node()
        self.number(8)
        self.number(8)
        self.counts(1)
        self.names(False)
        self.names(True)
        self.body()
        if self.at < len(self.data):
            raise Fault("Rest", self.at)


def answer(data):
    """What the bytes are read as, as one number: the kind, and 8 times the place of a fault."""
    try:
        Reader(data).letter()
    except Fault as fault:
        return fault.place * 8 + KINDS.index(fault.kind)
    return 0


def answers(letters):
    """The answers to each letter with each byte changed to each value, as one number of 64 bits,
    and how often each kind of answer was met."""
    found, met = 0, {}
    for letter in letters:
        for place in range(len(letter)):
            for value in VALUES:
                one = answer(letter[:place] + bytes([value]) + letter[place + 1 :])
                met[KINDS[one % 8]] = met.get(KINDS[one % 8], 0) + 1
                found = (found * 1_000_003 + one) % 2**64
    return found, met


if __name__ == "__main__":
    number, kinds = answers([HEAD + body for body in BODIES])
    print(number)
    print(", ".join(f"{kind} {count}" for kind, count in sorted(kinds.items())))
