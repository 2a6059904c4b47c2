"""Inputs for the benchmark and the fuzz: lines by kind, and random lines and directives by a seed."""
import random

NAMES = ["N%02d" % i for i in range(16)]
AXES = "XYZUVW"


def value(axis, r, wrong=0.0):
    if r.random() < wrong:
        return r.choice(["2000.000001", "-9999", "45", "360", "-2000.5"])
    if axis in "XYZ":
        return r.choice(["%d" % r.randint(-2000, 2000), "%d.%d" % (r.randint(-1999, 1999), r.randint(0, 999999)),
                         "-0.5", "2000.000000"])
    return r.choice(["0", "90", "180", "270", "-90", "-180", "-270", "90.000000"])


def pairs(r, axes=AXES, wrong=0.0):
    chosen = [a for a in axes if r.random() < 0.5]
    r.shuffle(chosen)
    return "".join(" %s %s" % (a, value(a, r, wrong)) for a in chosen)


def chain_of_sixteen(r):
    """Sixteen KSD in one chain, each with six values."""
    yield from ("KSD %s%s" % (n, "".join(" %s %s" % (a, value(a, r)) for a in AXES)) for n in NAMES)
    yield from ("KLN %s %s" % (NAMES[i], NAMES[i - 1]) for i in range(1, 16))


def definitions(r, count):
    yield from ("KSD %s%s" % (NAMES[i % 16], pairs(r)) for i in range(count))


def links(r, count):
    yield from ("KSD %s" % n for n in NAMES)
    for i in range(count):
        a = 1 + i % 15
        yield "KLN %s %s" % (NAMES[a], NAMES[a - 1] if i // 15 % 2 == 0 else "ZERO")


def copies(r, count):
    yield from ("KSD %s%s" % (n, pairs(r)) for n in NAMES)
    yield from ("KCP %s %s" % (NAMES[i % 16], NAMES[(i + 7) % 16]) for i in range(count))


def removals(r, count):
    """A removal needs something to remove: each is followed by its definition."""
    yield from chain_of_sixteen(r)
    for i in range(count // 2):
        n = NAMES[r.randrange(16)]
        yield "KRM " + n
        yield "KSD " + n


def removals_saved(r, count):
    """The same where sixteen systems are saved, eight of them in one chain that was enabled then: the other eight are removed and defined anew."""
    yield from chain_of_sixteen(r)
    yield from ("KLN N08 ZERO", "KEN N07", "WPA SKS", "KEN ZERO")
    for i in range(count // 2):
        n = NAMES[8 + r.randrange(8)]
        yield "KRM " + n
        yield "KSD " + n


def frames_here(r, count):
    """Definitions by KSF, five names in turn, from what is enabled: a frame of a chain of five KSD, one of a chain of four KSW, alone or beside a KST,
    a KST alone, a KSF on a KSF, or ZERO. After seven of them another one is enabled. It measures the walk to the enabled frame's resultant, and a definition without pairs."""
    kinds = ["KSD"] * 5 + ["KSW"] * 4 + ["KST"]
    near = lambda: "".join(" %s %d.%06d" % (a, r.randint(-150, 150), r.randrange(1000000)) for a in "XYZ") + "".join(" %s %s" % (a, value(a, r)) for a in "UVW")
    yield from ("%s %s%s" % (kind, n, near()) for kind, n in zip(kinds, NAMES))
    yield from ("KLN %s %s" % (b, a) for kind, next_kind, a, b in zip(kinds, kinds[1:], NAMES, NAMES[1:]) if kind == next_kind)
    yield from ("KEN N04", "KSF N10", "KEN N08", "KSF N11", "KLN N11 N10")
    for i in range(count):
        yield "KEN " + r.choice(NAMES[:10] + ["N11", "ZERO"]) if i % 8 == 0 else "KSF " + NAMES[12 + i % 4]


def enables(r, count):
    kinds = ["KSD", "KSW", "KST"]
    yield from ("%s %s" % (kinds[i % 3], n) for i, n in enumerate(NAMES))
    yield from ("KEN %s" % r.choice(NAMES + ["ZERO"]) for i in range(count))


def listing(word):
    def lines(r, count):
        yield from chain_of_sixteen(r)
        yield from (word for i in range(count))
    return lines


def one_resultant(r, count):
    yield from chain_of_sixteen(r)
    yield from ("KLT? " + NAMES[i % 16] for i in range(count))


def one_seen(r, count):
    """One system seen from another, all pairs of places in the chain."""
    yield from chain_of_sixteen(r)
    yield from ("KLT? %s %s" % (NAMES[i % 16], NAMES[i // 16 % 16]) for i in range(count))


def refusals(r, count):
    yield from chain_of_sixteen(r)
    yield "KEN " + NAMES[15]
    bad = ["FOO", "KSD", "KSD A X 2001", "KRM NONE", "KSD ZERO", "KSB B", "KLN N03 PI_BASE", "KLN N03 ZERO", "KSD NEW17",
           "KSD N03 X 5 Y", "KEN", "KLT? 9", "RPA SKS", "", "KCP N15 N00", "x" * 121]
    yield from (bad[i % len(bad)] for i in range(count))


KINDS = {
    "definitions": (definitions, 400000), "KSF": (frames_here, 400000), "links": (links, 400000), "copies": (copies, 400000), "removals": (removals, 400000),
    "removals, saved": (removals_saved, 400000),
    "enables": (enables, 400000), "KEN?": (listing("KEN?"), 400000), "KLN?": (listing("KLN?"), 200000),
    "KLS?": (listing("KLS?"), 60000), "KLT?": (listing("KLT?"), 60000), "KLT? name": (one_resultant, 200000),
    "KLT? A B": (one_seen, 200000), "refusals": (refusals, 400000),
}


def word(r):
    """A random word: mostly sensible, sometimes not."""
    pick = r.random()
    if pick < 0.35:
        return r.choice(NAMES[:6] + ["a", "b", "ZERO", "PI_BASE", "pi_levelling", "HEXAPOD", "T1", "W1", "K1", "L1", "L2", "K2"])
    if pick < 0.5:
        return r.choice(AXES)
    if pick < 0.7:
        return value(r.choice(AXES), r)
    if pick < 0.8:
        return r.choice(["0", "1", "ADVANCED", "SKS", "sks", "00", "-0", ".5", "5.", "10000", "9999", "2000.000001", "360", "45", "0090",
                         "1.2345678", "--1", "+5", "A" * 16, "A" * 17, "9A", "A-B", "_A", "A_9"])
    return r.choice(["KSD", "KSF", "KEN", "x", "?", "~", "KLT?"])


COMMANDS = ["KSD", "KST", "KSW", "KSB", "KLD", "KSF", "KLN", "KCP", "KRM", "KEN", "CCL", "WPA", "RPA", "DPA", "KEN?", "KLS?", "KLN?", "KLT?", "ERR?"]


def random_line(r, names):
    """A line of the machine: usually well formed, over a small set of names so that chains, use and rings come up."""
    pick = r.random()
    c = r.choice(COMMANDS)
    if pick < 0.04:
        return bytes(r.randrange(256) for _ in range(r.randrange(0, 130))).replace(b"\n", b" ")
    if pick < 0.14:
        text = " ".join([c] + [word(r) for _ in range(r.randrange(0, 6))])
    elif c in ("KSD", "KST", "KSW", "KLD"):
        text = c + " " + r.choice(names) + pairs(r, wrong=0.02)
    elif c == "KSB":
        text = "KSB " + r.choice(names) + pairs(r, "UVW")
    elif c == "KSF":
        text = "KSF " + r.choice(names + ["ZERO"])
    elif c in ("KLN", "KCP"):
        text = "%s %s %s" % (c, r.choice(names), r.choice(names + ["ZERO", "PI_BASE", "PI_LEVELLING", "HEXAPOD"]))
    elif c in ("KRM", "KEN"):
        text = c + " " + r.choice(names + ["ZERO", "PI_BASE", "PI_LEVELLING"])
    elif c == "CCL":
        text = r.choice(["CCL 0", "CCL 1 ADVANCED", "CCL 1 ADVANCED", "CCL 1 ADVANCED"])
    elif c in ("WPA", "RPA"):
        text = c + " SKS"
    elif c == "DPA":
        text = "DPA SKS" if r.random() < 0.1 else "KEN ZERO"
    elif c == "KLT?":
        some = names + ["ZERO", "PI_BASE", "PI_LEVELLING", "HEXAPOD"]
        text = r.choice(["KLT?", "KLT? " + r.choice(some), "KLT? %s %s" % (r.choice(some), r.choice(some))])
    else:
        text = c
    if r.random() < 0.1:
        text = text.lower()
    if r.random() < 0.1:
        text = r.choice([" ", "  "]) + text.replace(" ", r.choice([" ", "   "])) + r.choice(["", " "])
    if r.random() < 0.01:
        text = text.ljust(r.choice([119, 120, 121, 122]))
    return text.encode()


SMALL_SET = NAMES[:6] + ["A", "B", "W1", "W2", "T1", "T2", "K1", "K2", "K3", "L1", "L2", "L3", "F1", "F2", "Q" * 16]


def random_lines(seed, count):
    r = random.Random(seed)
    for _ in range(count):
        yield random_line(r, SMALL_SET)


def lines_around_saves(seed, count):
    """Few names, and many saves, enablings and removals, so that names often are in use in one memory and not in the other, or mean another system there."""
    r = random.Random(seed)
    names = ["A", "B", "C", "D"]
    weights = {"KRM": 30, "KEN": 20, "WPA": 10, "KSD": 8, "KSW": 4, "KST": 4, "KSB": 3, "KLD": 3, "KSF": 4, "KLN": 10, "KCP": 3, "RPA": 2, "DPA": 1, "CCL": 1, "ERR?": 1}
    for _ in range(count):
        c = r.choices(list(weights), weights.values())[0]
        if c in ("WPA", "RPA", "DPA"):
            c += " SKS"
        elif c == "CCL":
            c = r.choice(["CCL 0", "CCL 1 ADVANCED", "CCL 1 ADVANCED"])
        elif c == "KEN":
            c = "KEN " + r.choice(names + ["ZERO", "ZERO", "PI_BASE", "PI_LEVELLING"])
        elif c in ("KLN", "KCP"):
            c = "%s %s %s" % (c, r.choice(names), r.choice(names + ["ZERO"]))
        elif c != "ERR?":
            c += " " + r.choice(names)
        yield c.encode()


# ---- directives of ksscript

def spelled(data, r):
    """Bytes in hexadecimal, in either case."""
    text = data.hex() or "-"
    return (text.upper() if r.random() < 0.05 else text).encode()


def length(r):
    """The length of a lent buffer: mostly long enough, often at the border."""
    return b"%d" % r.choice([4096, 4096, 4096, 4097, 65536, 4095, 0, 1, r.randrange(5000)])


def damaged(image, r):
    """An image with one byte changed, left out or put in, or a part of it."""
    data = bytearray(bytes.fromhex(image.decode()))
    at = r.randrange(len(data))
    pick = r.random()
    if pick < 0.5:
        data[at] = r.choice([0, 1, 2, 6, 7, 127, 128, data[at] ^ 1, data[at] ^ 128, r.randrange(256)])
    elif pick < 0.7:
        del data[at]
    elif pick < 0.9:
        data.insert(at, r.choice([0, 1, 128, r.randrange(256)]))
    else:
        del data[at:]
    return bytes(data)


def asked(r):
    """A name for the question of use: mostly one that may be there, sometimes with small letters, a byte more or a byte less, or any bytes at all."""
    name = r.choice(SMALL_SET + ["ZERO", "PI_BASE", "PI_LEVELLING", "HEXAPOD"]).encode()
    pick = r.random()
    if pick < 0.05:
        return name.lower()
    if pick < 0.1:
        return name + bytes([r.choice([0, 32, 65, r.randrange(256)])])
    if pick < 0.15:
        return name[:-1]
    if pick < 0.17:
        return bytes(r.randrange(256) for _ in range(r.randrange(40)))
    return name


def position(r):
    """Six numbers: mostly a place in reach and no turn, so that KSF is accepted; often at the border, sometimes beyond it; some spelled longer than needed."""
    def number(limit):
        n = r.choice([0, 0, 1, -5, r.randint(-10**8, 10**8), r.randint(-limit, limit), limit, -limit])
        if r.random() < 0.03:
            n = r.choice([limit + 1, -limit - 1, 2**31, 2**32, -2**63, 2**63 - 1])
        return b"%s%d" % (b"-" if n < 0 or n == 0 and r.random() < 0.05 else b"", abs(n)) if r.random() < 0.95 else b"%010d" % n
    turned = r.random() < 0.25
    return [number(2 * 10**9) for _ in range(3)] + [number(360 * 10**6) if turned else b"0" for _ in range(3)]


def no_position(r):
    """One number that is none, or does not fit, or is too many or too few."""
    numbers = position(r)
    at = r.randrange(6)
    numbers[at:at + 1] = r.choice([[], [b"0", b"0"], [b"-"], [b"+1"], [b"--1"], [b"1.0"], [b"1e3"], [b"9223372036854775808"], [b"-9223372036854775809"],
                                   [b"18446744073709551616"], [b"340282366920938463463374607431768211456"], [b"x"], [b"5-"]])
    return numbers


def no_directive(r):
    if r.random() < 0.2:
        return b" ".join([b"P"] + no_position(r))
    return r.choice([b"", b"X", b"r", b"U", b"u 4b", b"U 4", b"U 4b 4b", b"L", b"L 4b", b"L 4 4096", b"L 4g 4096", b"L 4b 65537", b"L 4b 4096 1", b"W", b"W -1", b"W 1 2", b"I", b"I 0",
                     b"R R", b"N 0", b"\tR", b"W 99999999999999999999999", b"I " + b"ff" * r.randrange(40), b"L - 18446744073709551616"])


def random_directive(r, images):
    pick = r.random()
    if pick < 0.59:
        return b"L %s %s" % (spelled(random_line(r, SMALL_SET), r), length(r))
    if pick < 0.66:
        return b" ".join([b"P"] + position(r))
    if pick < 0.74:
        return b"U " + spelled(asked(r), r)
    if pick < 0.82:
        return b"W " + length(r)
    if pick < 0.88:
        return b"R"
    if pick < 0.90:
        return b"N"
    if pick < 0.97 and images:
        image = r.choice(images)
        return b"I " + spelled(damaged(image, r) if r.random() < 0.6 else bytes.fromhex(image.decode()), r)
    return no_directive(r)


def random_directives(seed, count, images):
    """Directives for ksscript; images (in hexadecimal) are started from, whole and damaged."""
    r = random.Random(seed)
    for _ in range(count):
        yield random_directive(r, images)


def directives_around_frames(seed, count):
    """Positions and KSF among few frames that hang on one another and are enabled in turn, often near the limit, and now and then in a full memory: 6, 11, 15 and 13 come up much."""
    r = random.Random(seed)
    names = ["A", "B", "C", "D", "E", "F"]
    weights = {"KSF": 28, "P": 18, "KEN": 14, "KLN": 9, "KSD": 6, "KSW": 5, "KST": 3, "KCP": 4, "KRM": 3, "KLT?": 4, "KLS?": 2, "KEN?": 1, "ERR?": 2, "WPA SKS": 2, "R": 1, "W 4096": 1}
    for _ in range(count):
        c = r.choices(list(weights), weights.values())[0]
        one, other = (r.choice(names) if r.random() < 0.8 else "N%d" % r.randrange(14) for _ in range(2))
        if c == "P":
            yield b" ".join([b"P"] + position(r))
            continue
        if c in ("R", "W 4096"):
            yield r.choice([b"N", b"R", b"R"]) if c == "R" else c.encode()
            continue
        if c in ("KSD", "KSW", "KST"):
            far = [" %s %s" % (a, r.choice(["2000", "-2000", "1999.999999", "-0.000001", "0.000001", "-7.5"])) for a in "XYZ" if r.random() < 0.4]
            c += " " + one + "".join(far) + pairs(r, "UVW")
        elif c in ("KLN", "KCP"):
            c += " %s %s" % (one, other)
        elif c == "KEN":
            c += " " + r.choice([one, one, one, "ZERO"])
        elif c in ("KSF", "KRM"):
            c += " " + (one if r.random() < 0.97 else "ZERO")
        yield b"L %s 4096" % c.encode().hex().encode()


def lines_of(kind):
    """The bytes of a kind's input."""
    if kind == "mix":
        return b"\n".join(random_lines(7, 300000)) + b"\n"
    make, count = KINDS[kind]
    return "\n".join(make(random.Random(1), count)).encode() + b"\n"


def questions(name, count):
    """The question of use for one name, so many times, where sixteen systems hang on one another and the last is enabled."""
    names = [chr(65 + i) for i in range(16)]
    lines = ["KSW " + n for n in names] + ["KLN %s %s" % pair for pair in zip(names[1:], names)] + ["KEN " + names[-1]]
    made = [b"L %s 4096" % line.encode().hex().encode() for line in lines]
    return b"\n".join(made + [b"U " + name.encode().hex().encode()] * count) + b"\n"


def positions(count):
    """So many position calls, six numbers each: up to the limits, of either sign, every second one with angles."""
    r = random.Random(1)
    places = [[r.randint(-2 * 10**9, 2 * 10**9) for _ in range(3)] + [r.randint(-36 * 10**7, 36 * 10**7) * (i % 2) for _ in range(3)] for i in range(1000)]
    return b"".join(b"P %d %d %d %d %d %d\n" % tuple(places[i % 1000]) for i in range(count))
