"""What `inspect` and `upgrade` write of the image of a log, by the tables of docs/FORMATS.md."""

MOST = 262144
LAST = 1000000000
OPS = {
    1: ("read", False),
    2: ("write", True),
    3: ("swap", True),
    4: ("size", False),
    5: ("put", True),
    6: ("take", False),
    7: ("add", True),
}


class NoLog(Exception):
    """The bytes are no log from a place on."""


class BadRecord(Exception):
    """An entry is no list of records from a place on."""


def long_at(image, at):
    return int.from_bytes(image[at : at + 8], "big")


def differs_from(image, header, least):
    """The first place that differs from the header, or is missing before `least`."""
    for at in range(least):
        if at >= len(image) or at < len(header) and image[at] != header[at]:
            return at
    return None


def entries_from(image, at):
    """The entries of a segment, and the place of its closed gate."""
    entries = []
    while True:
        if at >= len(image):
            raise NoLog(len(image))
        if image[at] != 1:
            return entries, at
        length = long_at(image, at + 1)
        if at + 9 > len(image) or at + 9 + length > len(image):
            raise NoLog(at + 1)
        entries.append(image[at + 9 : at + 9 + length])
        at += 9 + length


def entries_of(image):
    """The entries of a log of either form, and the place of its closed gate."""
    if len(image) > MOST:
        raise NoLog(MOST)
    if image[3:4] != b"C":
        at = differs_from(image, b"CAMELOT\n", 8)
        if at is not None:
            raise NoLog(at)
        return entries_from(image, 8)
    at = differs_from(image, b"CAMCKPT\n", 42)
    if at is not None:
        raise NoLog(at)
    slots = [(long_at(image, place + 1), -place) for place in (8, 25) if image[place] == 1]
    if not slots:
        raise NoLog(8)
    place = -max(slots)[1]
    start = long_at(image, place + 9)
    if not 42 <= start <= len(image):
        raise NoLog(place + 9)
    return entries_from(image, start)


class Entry:
    """Reads the fields of one entry from the left."""

    def __init__(self, data):
        self.data, self.at = data, 0

    def take(self, length):
        if self.at + length > len(self.data):
            raise BadRecord(len(self.data))
        self.at += length
        return int.from_bytes(self.data[self.at - length : self.at], "big")

    def number(self, length, least, most):
        at = self.at
        value = self.take(length)
        if not least <= value <= most:
            raise BadRecord(at)
        return value

    def count(self, least=1):
        return self.number(4, least, LAST)

    def name(self, most=8):
        parts = [
            f"{self.number(1, 1, 8)}.{self.count()}.{self.count()}"
            for _ in range(self.number(1, 1, most))
        ]
        return "/".join(parts)

    def deps(self):
        pairs, before = [], 0
        for _ in range(self.number(1, 0, 8)):
            at = self.at
            node = self.number(1, 1, 8)
            if node <= before:
                raise BadRecord(at)
            before = node
            pairs.append(f" {node}:{self.count()}")
        return "".join(pairs)

    def op(self, version):
        at = self.at
        tag = self.take(1)
        if tag not in OPS or tag == 7 and version == 1:
            raise BadRecord(at)
        if OPS[tag][1]:
            self.take(8)

    def record(self, version):
        """One record as its line, and the version after it."""
        at = self.at
        tag = self.take(1)
        if tag == 1:
            return f"count {self.count(2)}", version
        if tag == 2:
            return f"abort {self.name()}", version
        if tag == 3:
            return f"commit {self.name()}{self.deps()}", version
        if tag == 4:
            return f"seen {self.number(1, 1, 8)} {self.count(2)}", version
        if tag == 5:
            family, count, ops = self.name(1), self.count(), self.take(4)
            for _ in range(ops):
                self.number(4, 0, 999999999)
                self.number(1, 0, 63)
                self.op(version)
            return f"secure {family} {count} {ops}", version
        if tag == 6 and version == 1:
            return f"version {self.number(1, 2, 2)}", 2
        raise BadRecord(at)


def records_of(entries):
    """The lines of all entries, and the version at the end."""
    lines, version = [], 1
    for number, data in enumerate(entries):
        lines.append(f"entry {number}")
        entry = Entry(data)
        try:
            while entry.at < len(data):
                line, version = entry.record(version)
                lines.append("  " + line)
        except BadRecord as fault:
            raise BadRecord(f"{number} {fault}") from None
    return lines, version


def told(command, image):
    """The status and the bytes that `inspect` or `upgrade` owes for an image."""
    try:
        if (
            command == "upgrade"
            and len(image) <= MOST
            and image[3:4] == b"C"
            and differs_from(image, b"CAM", 3) is None
        ):
            raise NoLog(3)
        entries, closed = entries_of(image)
        lines, version = records_of(entries)
    except NoLog as fault:
        return 3, f"refused log {fault}\n".encode()
    except BadRecord as fault:
        return 3, f"refused record {fault}\n".encode()
    if command == "inspect":
        return 0, "".join(line + "\n" for line in lines).encode()
    if version == 2:
        return 0, image[: closed + 1]
    return 0, image[:closed] + bytes([1, 0, 0, 0, 0, 0, 0, 0, 2, 6, 2, 0])
