#!/usr/bin/env python3
"""Writes the cases that crates/replay runs, and what 01 says of each: nodes at the boundaries of their refusals, listings by steps."""
import struct
from pathlib import Path

from build import entry, last, record, root
from model import Cursor, Directory, Refused, entry_at

HERE = Path(__file__).resolve().parent.parent / "crates/replay"
OPEN, NEXT, BEGIN, GO_ON = 1, 2, 3, 4
cases, lines = [], []


def answer(operation, vcn, at, directory):
    node = directory.open_root() if vcn is None else directory.open_record(vcn)
    if operation == OPEN:
        place = 0 if vcn is None else node.record * directory.size
        return f"start {node.start} used {node.used} of {len(node.bytes)} at {place}"
    if at >= node.used:
        return "over"
    return f"entry of {len(entry_at(node, at))}"


def case(label, root, pool=b"", cluster=512, vcn=None, at=None):
    operation = OPEN if at is None else NEXT
    try:
        says = answer(operation, vcn, at, Directory(root, pool, cluster))
    except Refused as refused:
        says = f"refused {refused.number}"
    store(operation, label, vcn is not None, at or 0, vcn or 0, cluster, root, pool)
    lines.append(f"{label}: {says}\n")


def store(operation, label, node, position, number, cluster, root, pool):
    body = struct.pack("<BBHIqIII", operation, node, len(label), position, number, cluster, len(root), len(pool))
    body += label.encode() + root + pool
    cases.append(struct.pack("<I", len(body)) + body)


def steps(label, root, pool=b"", count=None, allowance=64, cursor=None, cluster=512):
    """Steps of a listing over this memory, from a new cursor or going on with one; as many as it takes, and two more."""
    operation = BEGIN if cursor is None else GO_ON
    cursor, said = cursor or Cursor(), []
    while len(said) < (count or 1000):
        answer, opened = cursor.step(Directory(root, pool, cluster), allowance)
        if isinstance(answer, tuple):
            vcn, at, size = answer
            said.append(f"{'root' if vcn is None else vcn} {at} {size} opened {opened}")
        else:
            said.append(f"end opened {opened}" if answer == "end" else f"refused {answer} opened {opened}")
            if count is None and said[-3:] == [said[-1]] * 3:
                break
    store(operation, label, 0, len(said), allowance, cluster, root, pool)
    lines.append(f"{label}: " + "".join(f"\n    {line}" for line in said) + "\n")
    return cursor


def roots():
    small = root(last())
    for n in (0, 31, 32):
        case(f"1 root of {n} bytes", root(used=0)[:n].ljust(n, b"\0"))
    case("2 root of 32 bytes, offset 15", root(offset=15, used=16))
    case("2 root of 32 bytes, offset 16", root(offset=16, used=16))
    case("2 offset 2^32 - 1", root(offset=16, used=16)[:16] + b"\xff\xff\xff\xff" + root()[20:])
    case("3 used end at the length", root(last(), used=32))
    case("3 used end one past the length", root(last(), used=33))
    case("3 and 2", root(offset=16, used=17))
    case("4 start at the used end, both inside", root(last(), used=16))
    case("4 start one past the used end", root(last(), used=15))
    case("4 with the large flag and no pool", root(last(), used=15, large=1))
    case("5 large flag, no pool", root(last(), large=1))
    case("5 flag 2, no pool", root(last(), large=2))
    case("5 large flag, a pool", root(last(), large=1), record(0))
    case("6 not looked at with an empty pool", root(last(), size=0), cluster=0)
    for size in (256, 511, 512, 513, 1024, 4096, 4097, 8192):
        case(f"6 record size {size}", root(last(), size=size), bytes(size * 2))
    for cluster in (0, 256, 512, 768, 4096, 65536, 65537, 131072):
        case(f"6 cluster size {cluster}", small, record(0), cluster=cluster)
    for n in (1, 511, 512, 513, 1023, 1024):
        case(f"7 pool of {n} bytes", small, bytes(n))


def records():
    head = root(last(0), large=1)
    pool = record(0, last()) + record(1, last())
    for vcn in (-(2**63), -1, 0, 1, 2, 2**55, 2**63 - 1):
        case(f"13 VCN {vcn}", head, pool, vcn=vcn)
    case("13 in an empty pool", root(last(0)), vcn=0)
    wide = root(last(0), size=1024, large=1)
    twice = record(0, last(), size=1024) + record(2, last(), size=1024)
    for vcn in (0, 1, 2, 3, 4):
        case(f"13 clusters of half a record, VCN {vcn}", wide, twice, vcn=vcn)
    case("13 record ends one past the pool", root(last(0), size=1024), twice[:-512], vcn=2)
    case("14 signature", head, record(0, last(), signature=b"INDY"), vcn=0)
    case("14 before 15", head, record(0, last(), signature=b"indx", allocated=600), vcn=0)
    for allocated in (487, 488, 489, 2**32 - 24, 2**32 - 1):
        case(f"15 allocated size {allocated}", head, record(0, last(), allocated=allocated), vcn=0)
    case("15 before 16", head, record(0, last(), allocated=489, used=490), vcn=0)
    for used in (99, 100, 101, 2**32 - 1):
        case(f"16 index size {used} of 100", head, record(0, last(), used=used, allocated=100), vcn=0)
    case("16 before 17", head, record(7, last(), used=101, allocated=100), vcn=0)
    case("17 own VCN 1 where 0 is wanted", head, record(1, last()), vcn=0)
    case("17 own VCN of another record", head, record(0, last()) + record(0, last()), vcn=1)
    case("17 own VCN 2^32 where 0 is wanted", head, record(2**32, last()), vcn=0)
    case("start at the used end", head, record(0, used=40), vcn=0)
    case("start past the used end", head, record(0, offset=48, used=40), vcn=0)
    case("start at 2^32 - 1", head, record(0, used=40)[:24] + b"\xff\xff\xff\xff" + record(0, used=40)[28:], vcn=0)


def entries():
    one = root(entry(1) + last())
    for at in (32, 48, 63, 64, 65, 2**32 - 1):
        case(f"root, at {at}", one, at=at)
    case("root, entry to the used end", root(entry(1, key=bytes(8)) + bytes(8), used=40), at=32)
    case("root, entry one past the used end", root(entry(1, key=bytes(8), length=25) + bytes(8), used=40), at=32)
    case("root, 15 bytes remain", root(entry(1), used=31), at=32)
    for length in (0, 4, 15, 16):
        case(f"root, length {length}", root(entry(1, length=length)), at=32)
    head = root(last(0), large=1)
    for length in (16, 447, 448, 449):
        case(f"record, length {length} to its end", head, record(0, entry(1, length=length), used=56), vcn=0, at=64)
    case("record, 16 bytes remain", head, record(0, offset=472, used=488, entries=entry(1)), vcn=0, at=496)
    case("record, 15 bytes remain", head, record(0, offset=473, used=488, entries=entry(1)), vcn=0, at=497)
    case("record, at the used end", head, record(0, last()), vcn=0, at=80)
    case("record, before the used end, in the slack", head, record(0, last(), used=57), vcn=0, at=80)


def tree():
    """01's P12: root 4 5 6; 1 3 under 4; 2 under 3."""
    head = root(entry(4, vcn=0) + entry(5) + entry(6) + last(), large=1)
    return head, record(0, entry(1) + entry(3, vcn=1) + last()) + record(1, entry(2) + last())


def chain(levels):
    """A root and records below it, one under the LAST_ENTRY of the other: so many levels in all."""
    pool = b"".join(record(k, last(k + 1)) for k in range(levels - 2)) + record(levels - 2, entry(9) + last())
    return root(last(0), large=1), pool


def listings():
    head, pool = tree()
    for allowance in (0, 1, 2, 64):
        steps(f"P12, allowance {allowance}", head, pool, allowance=allowance)
    steps("eight levels", *chain(8))
    steps("nine levels", *chain(9))
    steps("a record that points at itself", root(last(0), large=1), record(0, last(0)))
    steps("a record that points at itself, before its entry", root(last(0), large=1), record(0, entry(1, vcn=0) + last()))
    twice = root(entry(1, vcn=0) + entry(2, vcn=0) + last(), large=1)
    steps("a record entered twice", twice, record(0, entry(7) + last()))
    steps("start at the used end", root(last(), used=16))
    steps("no LAST_ENTRY", root(entry(1) + entry(2)))
    steps("entries after a LAST_ENTRY", root(entry(1) + last() + entry(2)))
    steps("entries without a key, and a key that is not read", root(entry(1) + entry(2, key=b"x" * 9) + last()))
    steps("an empty record", root(last(0), large=1), record(0, used=40))
    steps("9 before 10", root(entry(1, flags=1) + last()))
    steps("10", root(entry(1, vcn=0) + last()))
    steps("13 below", root(entry(5) + entry(1, vcn=7) + last(), large=1), record(0, last()))
    steps("14 below, after an entry", root(entry(1, vcn=0) + last(), large=1), record(0, last(), signature=b"none"))
    steps("8 in a record, with its count", root(last(0), large=1), record(0, entry(1) + entry(2, length=8)))
    steps("an entry in the slack of a record", root(last(0), large=1), record(0, entry(1) + entry(2) + last(), used=57))


def changes():
    """The memory changes between two steps: the checks are repeated, and an entry put off stands as it now is."""
    head, pool = tree()

    def change(label, new_head=head, new_pool=pool, before=1, cluster=512):
        cursor = steps(f"{label}, before", head, pool, count=before)
        steps(f"{label}, after", new_head, new_pool, count=3, cursor=cursor, cluster=cluster)

    def patched(s, at, new):
        return s[:at] + new + s[at + len(new) :]

    change("nothing")
    change("root cut to 31 bytes: 1", head[:31])
    change("root start outside: 2", patched(head, 16, b"\xff"))
    change("root end outside: 3", patched(head, 20, b"\xff"))
    change("root start past its end: 4", patched(head, 20, b"\x0f"))
    change("pool gone, large: 5", head, b"")
    change("pool gone, not large: 13 and not 10", patched(head, 28, b"\0"), b"")
    change("record size: 6", patched(head, 8, b"\0\3"))
    change("cluster size: 6", cluster=513)
    change("pool cut: 7", new_pool=pool[:-1])
    change("record of the deepest gone: 13", new_pool=pool[:512], before=2)
    change("signature of the deepest: 14", new_pool=patched(pool, 512, b"X"), before=2)
    change("allocated size: 15", new_pool=patched(pool, 32, b"\xff\xff"))
    change("index size: 16", new_pool=patched(pool, 28, b"\xff\xff"))
    change("own VCN: 17", new_pool=patched(pool, 16, b"\1"))
    change("both levels wrong, the upper first", new_pool=patched(patched(pool, 16, b"\1"), 512, b"X"), before=2)
    change("entry put off in the root, length 8: 8", patched(head, 40, b"\x08"))
    change("entry put off in the record, longer than what remains: 8", new_pool=patched(pool, 88, b"\xff\xff"), before=2)
    change("entry put off has become a LAST_ENTRY", patched(head, 44, b"\3"))
    change("entry put off has become longer, and the node goes on where it was", patched(head, 40, b"\x28"), before=3)
    change("entry put off has lost its subnode", patched(head, 44, b"\0"))
    change("used end before the end of the entry put off: 8", patched(head, 20, b"\x20"), before=3)
    ended = root(entry(1) + last(0) + entry(2) + last(), large=1)
    below = record(0, entry(7) + entry(8) + last())
    cursor = steps("a node that has ended, before", ended, below, count=2)
    steps("its LAST_ENTRY is none any more: it stays ended, after", patched(ended, 60, b"\1"), below, cursor=cursor)


roots()
records()
entries()
listings()
changes()
(HERE / "stdin").write_bytes(b"".join(cases))
(HERE / "stdout").write_text("".join(lines))
print(f"{len(cases)} cases")
