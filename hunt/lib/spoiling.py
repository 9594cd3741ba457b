"""Spoils scripts: a fault of each cause, a change in one place, scripts at the ends of limits."""

WORDS = [
    b"9",
    b"0",
    b"read",
    b"$1",
    b"-1",
    b"a1",
    b"o0",
    b"18446744073709551616",
    b"call",
    b"end",
    b"nodes",
    b"body",
    b"1A",
    b"b0",
    b"object",
    b"child",
    b"s1",
    b"01",
    b"513",
    b"take",
    b"abcdefghijklmnopq",
    b"-",
    b"$0",
    b"$1+9223372036854775808",
    b"#",
]


def spoilt(random, data, timed=False):
    """A script with one place changed, which most often makes it faulty."""
    return aimed(random, data, timed) if random.random() < 0.5 else changed(random, data)


def changed(random, data):
    """A script with one place changed anyhow."""
    lines = data.split(b"\n")
    at = random.randrange(len(lines))
    words = lines[at].split(b" ")
    form = random.randint(0, 8)
    if form == 0:
        lines.insert(at, random.choice(lines))
    elif form == 1:
        del lines[at]
    elif form == 2:
        words.insert(random.randint(0, len(words)), random.choice(WORDS))
    elif form == 3:
        del words[random.randrange(len(words))]
    elif form == 4:
        words[random.randrange(len(words))] = random.choice(WORDS)
    elif form == 5:
        words[random.randrange(len(words))] += bytes([random.randrange(256)])
    elif form == 6:
        return b"\n".join(lines[:at]) + (b"\n" if random.random() < 0.5 else b"")
    elif form == 7:
        words.insert(random.randint(0, len(words)), random.choice([b"", b"\t", b"\r", b"#"]))
    else:
        return data.replace(b"\n", b"\r\n") + (b"\r" if random.random() < 0.3 else b"")
    if form in (2, 3, 4, 5, 7):
        lines[at] = b" ".join(words)
    return b"\n".join(lines)


# For each cause of a refused script: a line that has it behind the last line of most scripts.
FAULTY = {
    2: [b"drain \x01", b"# \xe9", b"\x7f"],
    3: [b"drains", b"Drain", b"drain2"],
    4: [b"restart", b"lose", b"begin Z9"],
    5: [b"drain 1", b"restart 1 1", b"deliver 1 #"],
    6: [b"restart 9", b"deliver 01", b"deliver 4294967296", b"stop 1 1001", b"restart -1"],
    7: [b"begin 1A 1", b"begin abcdefghijklmnopq 1", b"begin _ 1"],
    8: [b"begin Z9 1\nbegin Z9 1", b"begin Z9 1\nask Z9 Z9 1"],
    9: [b"abort Z9", b"commit Z9 0", b"call Z9 o0 read"],
    10: [b"nodes 1", b"object Z9 1 queue", b"end", b"body Z9", b"child 1 1 b0"],
    11: [b"restart 8", b"begin Z9 8", b"tell 1 8"],
}


def aimed(random, data, timed):
    """A script with a fault of a cause that is chosen first."""
    fault = random.choice(FAULTY[random.choice(list(FAULTY))])
    return data + (fault.replace(b"Z9 1", b"Z9 1 9") if timed else fault) + b"\n"


def at_an_end(random, timed=False):
    """A script at an end of one of the limits, or one past it."""
    form, past = random.choice([0, 0, 1, 2] if timed else [0, 0, 1, 2, 3, 4]), random.randint(0, 1)
    head = b"nodes 1\nobject r 1 register 0\n"
    if form == 0:
        return head + b"#" * (262144 - len(head) - 1 + past) + b"\n"
    if form == 1:
        return head + b"drain\n" * (512 + past)
    if form == 2:
        return b"nodes 1\n" + b"".join(b"object o%d 1 counter 0\n" % n for n in range(64 + past))
    if form == 3:
        return head + b"".join(b"body b%d\ncommit 0\nend\n" % n for n in range(32 + past))
    bodies = [b"body b0\ncall 1 r write 1\ncommit 0\nend\n"]
    bodies += [
        b"body b%d\nchild 1 1 b%d\ncommit $1\nend\n" % (n, n - 1) for n in range(1, 8 + past)
    ]
    return head + b"".join(bodies) + b"start s 1 b7\nplay\n"
