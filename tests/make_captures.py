#!/usr/bin/env python3
"""Writes the captures that crates/replay_captures runs, and what 01 says that the program prints for each."""
import random
import struct
from pathlib import Path

from build import entry, key, last, record, root
from model import capture_output

TOP = Path(__file__).resolve().parent.parent
HERE = TOP / "crates/replay_captures"
captures = []


def field(tag, body):
    return struct.pack("<BH", tag, len(body)) + body


def capture(root_bytes, records=(), cluster=512, end=field(255, b"")):
    parts = [field(1, root_bytes)]
    if records:
        parts += [field(2, struct.pack("<I", cluster))] + [field(3, body) for body in records]
    return b"".join(parts) + end


def add(*new):
    captures.extend(new)


def lines():
    """What is printed of an entry: numbers at their limits, names of every kind, keys that cannot be read."""
    names = ["A", "", "Inverter_07.cfg", [0xFFFF, 0, 0xABCD, 0x0a0b], "x" * 255]
    references = [(0, 0), (41, 3), (9, 10), (99, 100), (2**48 - 1, 65535), (10**14, 9999)]
    for record_number, sequence in references:
        add(capture(root(entry(record_number, sequence, key=key("N")) + last())))
    for name in names:
        for namespace in range(5):
            add(capture(root(entry(5, 1, key=key(name, namespace)) + last())))
    add(capture(root(entry(5, 1) + last())))
    for n in (1, 65, 66, 67, 68):
        add(capture(root(entry(5, 1, key=bytes(n)) + last())))
    add(capture(root(entry(5, 1, key=key("AB", units=3)) + last())))
    add(capture(root(entry(5, 1, key=key("AB", extra=b"zz")) + last())))
    add(capture(root(entry(5, 1, key=key("A"), key_length=85) + last())))
    add(capture(root(entry(5, 1, key=key("A"), flags=2))))
    add(capture(root(entry(5, 1, key=key("A"), flags=0xFC) + last())))


def refusals():
    """Each refusal that a listing can give, at its boundary."""
    one = root(entry(1, key=key("A")) + last())
    for n in range(29, 34):
        add(capture(one[:n]))
    add(capture(root(offset=16, used=16)), capture(root(last(), used=32)), capture(root(last(), used=33)))
    add(capture(root(last(), used=15)), capture(root(last(), used=16)), capture(root(last(), large=1)))
    for size in (256, 512, 1024, 2048, 4096, 8192, 513):
        add(capture(root(last(0), size=size, large=1), [record(0, entry(7, key=key("S")) + last(), size=size)]))
    for cluster in (0, 256, 512, 65536, 65537):
        add(capture(root(last(0), large=1), [record(0, last())], cluster))
    add(capture(root(last(0), size=1024, large=1), [record(0, last())]), capture(root(last()), [bytes(513)]))
    for length in (0, 4, 12, 13, 15, 16, 17, 65535):
        add(capture(root(entry(1, length=length) + last())))
    for length in (16, 17, 23, 24):
        add(capture(root(entry(1, flags=1, length=length) + bytes(length - 16) + last())))
    add(capture(root(entry(1, vcn=0) + last())))
    for levels in (7, 8, 9, 10):
        chain = [record(k, last(k + 1)) for k in range(levels - 2)] + [record(levels - 2, entry(9, key=key("deep")) + last())]
        add(capture(root(last(0), large=1), chain))
    add(capture(root(last(0), large=1), [record(0, last(0))]))
    for vcn in (-(2**63), -1, 1, 2, 2**40, 2**63 - 1):
        add(capture(root(entry(3, key=key("before")) + last(vcn), large=1), [record(0, last())]))
    leaf = entry(8, key=key("leaf")) + last()
    add(capture(root(last(0), large=1), [record(0, leaf, signature=b"INDy")]))
    for allocated in (488, 489, 2**32 - 1):
        add(capture(root(last(0), large=1), [record(0, leaf, allocated=allocated)]))
    for used in (56, 57, 200, 488, 489):
        add(capture(root(last(0), large=1), [record(0, leaf, used=used, allocated=488)]))
    add(capture(root(last(0), large=1), [record(1, leaf)]), capture(root(last(0), large=1), [record(-1, leaf)]))


def many_records():
    """Records against the allowance of 64 and the limit of 57,344 bytes."""
    for count in (63, 64, 65, 111, 112):
        entries = b"".join(entry(k, vcn=k) for k in range(count - 1)) + last(count - 1)
        add(capture(root(entries, large=1), [record(k, entry(100 + k, key=key("r")) + last()) for k in range(count)]))
    add(capture(root(last()), [bytes(512)] * 112), capture(root(last()), [bytes(512)] * 113))
    add(capture(root(last(), size=4096), [bytes(4096)] * 14), capture(root(last(), size=4096), [bytes(4096)] * 14 + [bytes(1)]))
    add(capture(root(last()), [bytes(57344)]), capture(root(last()), [bytes(57345)]))
    add(capture(root(last()), [b""]), capture(root(last(), large=1), [b""]), capture(root(last(0)), [b"", b"", b""]))
    add(capture(root(last()), [b"", bytes(512)]), capture(root(last()), [bytes(512), b""]), capture(root(last()), [bytes(512), bytes(511)]))


def grammar():
    """Fields out of order, missing, twice, of a wrong length, cut anywhere."""
    whole = capture(root(entry(41, 3, key=key("A"), length=88) + bytes(4) + last(), size=4096))
    assert len(whole) == 142
    r, two, three, end = field(1, root(last())), field(2, bytes([0, 2, 0, 0])), field(3, record(0, last())), field(255, b"")
    add(whole, r + two + three + end, r + two + end, r + three + end, two + three + r + end, r + r + end, r + two + two + three + end)
    add(r + three + two + end, r + two + three, r + end + b"\0", r + end + end, end, b"", r, two + r + three + end, r + two + three + r + end)
    add(r + field(2, bytes(3)) + three + end, r + field(2, bytes(5)) + three + end, r + field(4, b"") + end, field(0, b"") + r + end)
    add(r + field(255, b"x"), r + two + three + field(255, b"x"), r + two + three + three[:-1] + end, field(1, b"") + end)
    add(*(whole[:n] for n in (1, 2, 3, 4, 138, 139, 140, 141)), *(whole + bytes(n) for n in (1, 2, 3)))
    for n in (65534, 65535, 65536):
        add(field(1, root(last()).ljust(n - 6, b"\0")) + end)
    add(field(1, root(last()).ljust(65529, b"\0")) + end + b"\0")


def damaged():
    """A small directory of two levels with a byte changed: any of them, at random from a fixed seed."""
    rng = random.Random(20)
    head = root(entry(4, 1, key=key("d"), vcn=0) + entry(5, 1, key=key("e")) + last(1), large=1)
    below = [record(0, entry(1, 1, key=key("a")) + entry(3, 1, key=key("c")) + last()), record(1, entry(6, 1, key=key("f")) + last())]
    good = capture(head, below)
    for _ in range(60):
        at = rng.choice([rng.randrange(len(head) + 20), rng.randrange(len(good)), len(head) + 13 + rng.randrange(150)])
        add(good[:at] + bytes([rng.choice([0, 1, 2, 3, 16, 255, rng.randrange(256)])]) + good[at + 1 :])


def real():
    """Captures of real volumes, whose expected output stands beside them."""
    for path in sorted((TOP / "examples/real").glob("*.capture")):
        add(path.read_bytes())
        assert capture_output(captures[-1]) == path.with_suffix(".expected").read_text(), path


for part in (lines, refusals, many_records, grammar, damaged, real):
    part()
(HERE / "stdin").write_bytes(b"".join(struct.pack("<I", len(c)) + c for c in captures))
(HERE / "stdout").write_text("".join(capture_output(c) for c in captures))
seen = sorted({int(line.split()[1]) for c in captures for line in capture_output(c).splitlines() if line.startswith("refused")})
print(f"{len(captures)} captures; refusals reached: {seen}")
