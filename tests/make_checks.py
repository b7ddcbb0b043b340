#!/usr/bin/env python3
"""Writes the cases that crates/replay_checks runs, and the answers to them: 01's own, a model's, and those known of real directories.

usage: tests/make_checks.py REAL_FOLDER

What 01 states, and the boundary of every refusal, is answered here by hand; the model of tests/walks.py, written from 01 alone, must agree.
Made directories are answered by the model. A real directory passes with the count that its params.json gives, and its marks are the bits of
the volume's own bitmap of that index. No answer is our own program's. The marks lent are filled with 0xFF where nothing else is said, and some
bytes longer than the number of records.
"""
import json
import lzma
import random
import struct
import sys
from collections import Counter
from pathlib import Path

from build import entry, key, last, record, root
from make_inputs import damaged, tables, well_formed
from walks import UNITS, checked

HERE = Path(__file__).resolve().parent.parent / "crates/replay_checks"
MEMORY, TABLE_T, IDENTITY, LOWER, UPPER, CHECK = range(1, 7)
MORE, MOST_BYTES, EACH, EACH_PASS = 3, 2200, 7, 30
REAL = ["c4096/Extend", "k3_c1024/n10", "k3_c1024/under", "k3_c1024/dos", "k3_c1024/shrunk3"]


def case(operation, body=b""):
    return struct.pack("<II", len(body), operation) + body


def memory(head, pool, cluster):
    return case(MEMORY, struct.pack("<III", cluster, len(head), len(pool)) + head + pool)


def named(name, number=1, **more):
    return entry(number, 1, key=key(name), **more)


class Chosen:
    """A directory to check, and its answer. Marks: how many are lent; None is one a record and some more."""

    def __init__(self, label, answer, head, pool=b"", cluster=512, table="T", units=UNITS, marks=None, byte=0xFF):
        self.label, self.answer, self.head, self.pool, self.cluster = label, answer, head, pool, cluster
        self.table, self.units, self.byte = table, units, byte
        size = int.from_bytes(head[8:12], "little") or 512
        self.marks = -(-len(pool) // size) + MORE if marks is None else marks


def chain(levels):
    """A root, and so many levels below it less one: each LAST_ENTRY leads down."""
    down = [record(k, named("m") + last(k + 1)) for k in range(levels - 2)]
    return root(last(0), large=1), b"".join(down) + record(levels - 2, named("z") + last())


def tree():
    """P12's tree: 4 5 6 in the root, 1 3 under 4, 2 under 3."""
    head = root(named("4", vcn=0) + named("5") + named("6") + last(), large=1)
    return head, record(0, named("1") + named("3", vcn=1) + last()) + record(1, named("2") + last())


LEAF = record(0, named("b") + last())
OVER = root(last(0), large=1)


def stated():
    """What 01 itself says, with the marks: label, directory, answer, marks afterwards, and what else is lent."""
    yield "eight levels", chain(8), "passed 7", "01" * 7 + "ffffff", {}
    yield "a ninth level", chain(9), "refused 11 7", "00" * 8 + "ffffff", {}
    yield "a root whose start equals its used end", (root(last(), used=16), b""), "refused 23 0", "ffffff", {}
    yield "the same with a record in the pool", (root(last(), used=16), LEAF), "refused 23 0", "00ffffff", {}
    yield "P12", tree(), "passed 2", "0101ffffff", {}
    head, pool = tree()
    yield "P12 and a record that no path reaches", (head, pool + bytes(512)), "passed 2", "010100ffffff", {}
    yield "marks exactly as long as the records", tree(), "passed 2", "0101", {"marks": 2}
    yield "marks one short", tree(), "refused 21 0", "ff", {"marks": 1}
    yield "no marks", tree(), "refused 21 0", "-", {"marks": 0}
    yield "no marks and no pool", (root(last()), b""), "passed 0", "-", {"marks": 0}
    yield "marks that are 1 before", tree(), "passed 2", "0101010101", {"byte": 1}
    yield "marks that are 0 before", tree(), "passed 2", "0101000000", {"byte": 0}
    yield "marks that are 1 before, a fault", chain(9), "refused 11 7", "00" * 8 + "010101", {"byte": 1}
    yield "marks that are 1 before, marks too short", tree(), "refused 21 0", "01", {"byte": 1, "marks": 1}
    yield "a table of 65,535 units", tree(), "refused 19 0", "ff" * 5, {"units": 65535}
    yield "a table of 65,537 units", tree(), "refused 19 0", "ff" * 5, {"units": 65537}
    yield "no table", tree(), "refused 19 0", "ff" * 5, {"units": 0}
    yield "a table of 65,535 units, a root of 31 bytes", (head[:31], pool), "refused 19 0", "ff" * 5, {"units": 65535}
    yield "a table of 65,535 units, marks too short", (head, pool), "refused 19 0", "ff", {"units": 65535, "marks": 1}
    yield "a root of 31 bytes", (head[:31], pool), "refused 1 0", "ff" * 5, {}
    yield "a root of 31 bytes, marks too short", (head[:31], pool), "refused 1 0", "ff", {"marks": 1}
    yield "a root of 32 bytes with offset 16", (root(), pool), "refused 2 0", "ff" * 5, {}
    yield "a pool not of whole records, marks too short", (head, pool[:-1]), "refused 7 0", "-", {"marks": 0}
    yield "marks too short, a root that runs out", (root(last(), used=16), pool), "refused 21 0", "ff", {"marks": 1}
    twice = root(named("c", vcn=0) + last(0), large=1)
    yield "a record reached twice", (twice, LEAF), "refused 22 1", "00ffffff", {}
    yield "a record that leads to itself", (OVER, record(0, last(0))), "refused 22 1", "00ffffff", {}
    yield "equal names", (root(named("a") + named("A") + named("a") + last()), b""), "passed 0", "ffffff", {}
    yield "a name less than the one before it", (root(named("b") + named("A") + last()), b""), "refused 25 0", "ffffff", {}
    yield "the whole case of the program", (root(entry(41, 3, key=key("A"), length=88) + bytes(4) + last()), b""), "passed 0", "ffffff", {}


def add_stated(store):
    for label, (head, pool), answer, marks, more in stated():
        store.add(Chosen(f"01, {label}", answer, head, pool, **more), marks)


def boundaries():
    """Each refusal where it begins: what passes last, what is refused first, and which of two comes first."""
    yield from of_roots()
    yield from of_sizes()
    yield from of_entries()
    yield from of_keys()
    yield from of_subnodes()
    yield from of_records()
    yield from of_ends()
    yield from of_order()
    yield from of_faults_together()


def of_roots():
    whole = root(named("a") + last())
    for n, answer in ((0, 1), (31, 1)):
        yield Chosen(f"a root of {n} bytes", f"refused {answer} 0", whole[:n], LEAF)
    yield Chosen("a root's start 16 before its length", "passed 0", root(last()))
    yield Chosen("a root's start at its length", "refused 2 0", root(last(), offset=32, used=32))
    yield Chosen("a root's start one before its length", "refused 8 0", root(last(), offset=31, used=32))
    yield Chosen("a root's start past its length before its used end is", "refused 2 0", root(last(), offset=33, used=33))
    yield Chosen("a root longer than its used end", "passed 0", root(last()) + bytes(1))
    yield Chosen("a root's used end one past its length", "refused 3 0", root(last(), used=33))
    yield Chosen("the same with a record in the pool", "refused 3 0", root(last(), used=33), LEAF)
    yield Chosen("a root's used end 2^32 - 1", "refused 3 0", root(last(), used=2**32 - 1))
    yield Chosen("a root's start one past its used end", "refused 4 0", root(last(), offset=17, used=16))
    yield Chosen("the same with two records in the pool", "refused 4 0", root(last(), offset=17, used=16), LEAF + LEAF)
    yield Chosen("the large flag, no pool", "refused 5 0", root(last(), large=1))
    yield Chosen("the large flag, a pool", "passed 0", root(last(), large=1), LEAF)
    yield Chosen("flag 2, no pool", "passed 0", root(last(), large=2))
    yield Chosen("no large flag, a pool", "passed 1", root(last(0)), LEAF)


def of_sizes():
    for size in (512, 1024, 2048, 4096):
        leaf = record(0, named("b") + last(), size=size)
        yield Chosen(f"record size {size}", "passed 1", root(last(0), size=size), leaf)
        yield Chosen(f"record size {size}, a pool one byte short", "refused 7 0", root(last(0), size=size), leaf[:-1])
        yield Chosen(f"record size {size}, a pool one byte long", "refused 7 0", root(last(0), size=size), leaf + b"\0")
    for size in (0, 1, 256, 511, 513, 768, 8192, 2**31):
        yield Chosen(f"record size {size}", "refused 6 0", root(last(0), size=size), bytes(8192), marks=20)
    for cluster in (512, 1024, 2048, 4096, 8192, 16384, 32768, 65536):
        yield Chosen(f"cluster size {cluster}", "passed 1", OVER, LEAF, cluster)
    for cluster in (0, 256, 511, 768, 131072):
        yield Chosen(f"cluster size {cluster}", "refused 6 0", OVER, LEAF, cluster)
    yield Chosen("sizes not allowed, no pool", "passed 0", root(last(), size=7), b"", 3)


def of_entries():
    for length in (0, 13, 14, 15):
        yield Chosen(f"an entry of length {length}", "refused 8 0", root(entry(flags=2, length=length)))
    yield Chosen("an entry of length 16", "passed 0", root(entry(flags=2, length=16)))
    yield Chosen("a LAST_ENTRY of length 17", "passed 0", root(entry(flags=2, length=17) + b"\0"))
    yield Chosen("a LAST_ENTRY one past the root's used end", "refused 8 0", root(entry(flags=2, length=17)))
    yield Chosen("the same, a byte longer root", "refused 8 0", root(entry(flags=2, length=17), used=32) + b"\0")
    yield Chosen("15 bytes remain", "refused 8 0", root(named("a") + last()[:15]))
    yield Chosen("an entry of length 65,535", "refused 8 0", root(named("a", length=65535) + last()))
    full = record(0, entry(flags=2, length=448) + bytes(432), used=488)
    yield Chosen("a LAST_ENTRY to the record's end", "passed 1", OVER, full)
    yield Chosen("a LAST_ENTRY one past the record's end", "refused 8 1", OVER, record(0, entry(flags=2, length=449) + bytes(432), used=488))
    yield Chosen("an entry one past the record's end", "refused 8 1", OVER, record(0, named("b", length=449), used=100))
    yield Chosen("15 bytes remain in a record", "refused 8 1", OVER, record(0, b"", offset=473, used=488))
    yield Chosen("other flags", "passed 0", root(named("a", flags=0xFC) + entry(flags=0xFE)))


def of_keys():
    fits = key("a")
    yield Chosen("a key to its entry's end", "passed 0", root(entry(1, key=fits) + last()))
    yield Chosen("a key one past its entry", "refused 9 0", root(entry(1, key=fits, key_length=69) + last()))
    yield Chosen("a key of 65,535 bytes", "refused 9 0", root(entry(1, key=fits, key_length=65535) + last()))
    yield Chosen("a key of 66 bytes, no units", "passed 0", root(entry(1, key=bytes(66)) + last()))
    yield Chosen("a key of 65 bytes, no units", "refused 18 0", root(entry(1, key=bytes(65)) + last()))
    yield Chosen("a key of one byte", "refused 18 0", root(entry(1, key=bytes(1)) + last()))
    yield Chosen("no key", "refused 24 0", root(entry(1) + last()))
    yield Chosen("no key, though the entry is long", "refused 24 0", root(named("a", key_length=0) + last()))
    for namespace in range(6):
        answer = "passed 0" if namespace < 4 else "refused 18 0"
        yield Chosen(f"namespace {namespace}", answer, root(entry(1, key=key("a", namespace)) + last()))
    yield Chosen("a name to its key's end", "passed 0", root(entry(1, key=key("ab", units=2)) + last()))
    yield Chosen("a name one unit past its key", "refused 18 0", root(entry(1, key=key("ab", units=3)) + last()))
    yield Chosen("a name one byte past its key", "refused 18 0", root(entry(1, key=key("ab", units=3, extra=b"\0")) + last()))
    yield Chosen("a name of 255 units", "passed 0", root(named("a" * 255) + last()))
    yield Chosen("a LAST_ENTRY with a key past its end", "passed 0", root(entry(flags=2, key_length=500)))


def of_subnodes():
    for length in (16, 17, 23):
        wants = root(entry(flags=3, length=length) + bytes(length - 16), large=1)
        yield Chosen(f"a subnode in a LAST_ENTRY of {length} bytes", "refused 9 0", wants, LEAF)
    yield Chosen("a subnode in a LAST_ENTRY of 24 bytes", "passed 1", root(entry(flags=3, length=24) + bytes(8), large=1), LEAF)
    yield Chosen("a subnode in a LAST_ENTRY of 23 bytes, no pool", "refused 9 0", root(entry(flags=3, length=23) + bytes(7)))
    yield Chosen("a subnode, no pool", "refused 10 0", root(last(0)))
    yield Chosen("a subnode of VCN -1, no pool", "refused 10 0", root(last(-1)))
    for vcn in (-(2**63), -1, 1, 2**54, 2**55, 2**63 - 1):
        yield Chosen(f"VCN {vcn}", "refused 13 0", root(named("a") + last(vcn), large=1), LEAF)
    yield Chosen("VCN -1 at level 8", "refused 11 7", OVER, deep(last(-1)))
    yield Chosen("VCN of a record reached, at level 8", "refused 11 7", OVER, deep(last(0)))
    yield Chosen("a subnode of 23 bytes at level 8", "refused 9 7", OVER, deep(entry(flags=3, length=23) + bytes(7)))
    half = bytes(1024) + record(2, named("b") + last(), size=1024)
    yield Chosen("clusters of half a record", "passed 1", root(last(2), size=1024), half)
    yield Chosen("a record between two records", "refused 13 0", root(last(1), size=1024), half)
    two = bytes(1024) + record(1, named("b") + last())
    yield Chosen("clusters of two records", "passed 1", root(last(1)), two, 1024)
    yield Chosen("clusters of two records, one past", "refused 13 0", root(last(2)), two, 1024)


def deep(end):
    """Seven records in a chain; the last ends with this LAST_ENTRY."""
    return b"".join(record(k, last(k + 1)) for k in range(6)) + record(6, end)


def of_records():
    leaf = named("b") + last()
    shapes = [
        ("signature INDy", "refused 14 0", record(0, leaf, signature=b"INDy")),
        ("signature indx", "refused 14 0", record(0, leaf, signature=b"indx")),
        ("allocated size 488", "passed 1", record(0, leaf, allocated=488)),
        ("allocated size 489", "refused 15 0", record(0, leaf, allocated=489)),
        ("allocated size 2^32 - 1", "refused 15 0", record(0, leaf, allocated=2**32 - 1)),
        ("index size the allocated size", "passed 1", record(0, leaf, allocated=140)),
        ("index size one over the allocated", "refused 16 0", record(0, leaf, allocated=139)),
        ("own VCN 1", "refused 17 0", record(1, leaf)),
        ("own VCN -1", "refused 17 0", record(-1, leaf)),
        ("own VCN 2^32", "refused 17 0", record(2**32, leaf)),
        ("14 before 15", "refused 14 0", record(1, leaf, signature=b"indx", allocated=600, used=700)),
        ("15 before 16", "refused 15 0", record(1, leaf, used=700, allocated=600)),
        ("16 before 17", "refused 16 0", record(1, leaf, used=101, allocated=100)),
        ("17 before its entries", "refused 17 0", record(1, entry(length=4))),
    ]
    for label, answer, one in shapes:
        yield Chosen(f"a record: {label}", answer, root(named("a") + last(0), large=1), one)
    bad = root(named("c", vcn=0) + last(1), large=1)
    yield Chosen("a second record's signature", "refused 14 1", bad, LEAF + record(1, leaf, signature=b"indx"))
    yield Chosen("a record that no path reaches is not looked at", "passed 1", OVER, LEAF + b"\xff" * 512)


def of_ends():
    yield Chosen("no LAST_ENTRY in the root", "refused 23 0", root(named("a") + named("b")))
    yield Chosen("an entry after a LAST_ENTRY in the root", "refused 23 0", root(named("a") + last() + named("b") + last()))
    yield Chosen("a byte after a LAST_ENTRY in the root", "refused 23 0", root(last() + b"\0"))
    shapes = [
        ("used end at its LAST_ENTRY's end", "passed 1", record(0, last(), used=56)),
        ("used end one before", "refused 23 1", record(0, last(), used=55)),
        ("used end one after", "refused 23 1", record(0, last(), used=57)),
        ("start one before the used end", "refused 23 1", record(0, last(), used=41)),
        ("start at the used end", "refused 23 1", record(0, used=40)),
        ("start past the used end", "refused 23 1", record(0, last(), offset=48, used=40)),
        ("start past the record", "refused 23 1", record(0, used=100)[:24] + struct.pack("<I", 2**32 - 1) + record(0, used=100)[28:]),
        ("no LAST_ENTRY", "refused 23 1", record(0, named("b"))),
        ("an entry to the used end, no LAST_ENTRY", "refused 23 1", record(0, named("b") + last(), used=124)),
        ("an entry one past the used end", "refused 23 1", record(0, named("b") + last(), used=123)),
        ("an empty index", "refused 23 1", record(0, used=0)),
    ]
    for label, answer, one in shapes:
        yield Chosen(f"a record: {label}", answer, OVER, one)
    yield Chosen("an empty subnode after a full one", "refused 23 2", root(named("c", vcn=0) + last(1), large=1), LEAF + record(1, used=40))


def of_order():
    yield Chosen("a, _ under T", "passed 0", root(named("a") + named("_") + last()))
    yield Chosen("a, _ under the identity", "refused 25 0", root(named("a") + named("_") + last()), table="I")
    yield Chosen("_, a under the identity", "passed 0", root(named("_") + named("a") + last()), table="I")
    yield Chosen("_, a under T", "refused 25 0", root(named("_") + named("a") + last()))
    yield Chosen("a, A under the identity", "refused 25 0", root(named("a") + named("A") + last()), table="I")
    yield Chosen("a, ab", "passed 0", root(named("a") + named("ab") + last()))
    yield Chosen("ab, a", "refused 25 0", root(named("ab") + named("a") + last()))
    yield Chosen("the empty name first", "passed 0", root(named("") + named("a") + last()))
    yield Chosen("the empty name second", "refused 25 0", root(named("a") + named("") + last()))
    yield Chosen("units without sign", "passed 0", root(named((0x7FFF,)) + named((0x8000,)) + named((0xFFFF,)) + last()))
    yield Chosen("the high byte decides", "refused 25 0", root(named((0x0100,)) + named((0x00FF,)) + last()))
    yield Chosen("equal names of other namespaces", "passed 0", root(entry(key=key("A", 2)) + entry(key=key("a", 0)) + last()))
    yield from of_order_across()
    yield Chosen("a LAST_ENTRY with a smaller key", "passed 0", root(named("b") + named("a", flags=2)))
    kept = root(named("m", vcn=0) + last(), large=1)
    yield Chosen("a LAST_ENTRY's key is not kept", "passed 1", kept, record(0, named("b") + named("z", flags=2)))
    first = root(named("a", flags=2, vcn=0), large=1)
    yield Chosen("a LAST_ENTRY's key is not compared after its subnode", "passed 1", first, LEAF)


def of_order_across():
    above = root(named("b", vcn=0) + last(), large=1)
    yield Chosen("an entry equal to its subnode's last name", "passed 1", above, LEAF)
    yield Chosen("an entry less than its subnode's last name", "refused 25 1", above, record(0, named("c") + last()))
    beside = root(named("b", vcn=0) + last(1), large=1)
    low, same, less = (record(k, named(n) + last()) for k, n in ((0, "a"), (1, "B"), (1, "a")))
    yield Chosen("a subnode's name equal to the one before it in another node", "passed 2", beside, low + same)
    yield Chosen("a subnode's name less than the one before it in another node", "refused 25 2", beside, low + less)
    down = record(0, named("a") + last(1)) + record(1, named("c") + last())
    yield Chosen("an entry less than a name two levels below", "refused 25 2", above, down)
    two = root(named("c", vcn=0) + named("d", vcn=1) + last(), large=1)
    yield Chosen("a subnode's name less than an entry above it", "refused 25 2", two, LEAF + less)
    empty = record(0, last())
    yield Chosen("the name before it three nodes back", "refused 25 2", root(named("b") + last(0), large=1), record(0, last(1)) + less)
    yield Chosen("a subnode without a name", "passed 1", root(named("b") + named("c", vcn=0) + last(), large=1), empty)
    yield Chosen("a name falls over a subnode without one", "refused 25 1", root(named("b") + named("a", vcn=0) + last(), large=1), empty)


def of_faults_together():
    """Two faults: which is given."""
    yield Chosen("a subnode's 14 before the next entry's 8", "refused 14 0", root(named("a", vcn=0) + b"\0", large=1), bytes(512))
    yield Chosen("23 before 24", "refused 23 1", OVER, record(0, entry(1) + last(), used=41))
    yield Chosen("23 before 9", "refused 23 1", OVER, record(0, named("a", key_length=90) + last(), used=41))
    yield Chosen("23 before a subnode", "refused 23 0", root(last(-1) + b"\0", large=1), LEAF)
    yield Chosen("24 before a VCN's 9", "refused 24 0", root(entry(1, flags=1) + last(), large=1), LEAF)
    yield Chosen("24 before 10", "refused 24 0", root(entry(1, vcn=0) + last()))
    yield Chosen("a key's 9 before its VCN's 13", "refused 9 0", root(named("a", vcn=-1, key_length=100) + last(), large=1), LEAF)
    yield Chosen("18 before 10", "refused 18 0", root(entry(1, key=bytes(65), vcn=0) + last()))
    yield Chosen("18 before 13", "refused 18 0", root(entry(1, key=bytes(65), vcn=-1) + last(), large=1), LEAF)
    falls = named("b") + named("a", vcn=0) + last()
    yield Chosen("14 of a subnode before its entry's 25", "refused 14 0", root(falls, large=1), bytes(512))
    yield Chosen("24 in a subnode before its entry's 25", "refused 24 1", root(falls, large=1), record(0, entry(1) + last()))
    yield Chosen("10 before 25", "refused 10 0", root(falls))
    yield Chosen("25 before the next entry's 8", "refused 25 0", root(named("b") + named("a") + entry(length=15)))
    yield Chosen("25 before the node runs out", "refused 25 0", root(named("b") + named("a")))
    yield Chosen("13 before 22", "refused 13 1", root(named("c", vcn=0) + last(-1), large=1), LEAF)


class Store:
    """The two files as they grow."""

    def __init__(self, known):
        self.known, self.cases, self.lines, self.memory, self.table, self.kinds = known, [], [], None, "", Counter()

    def lend(self, head, pool, cluster):
        lent = memory(head, pool, cluster)
        if lent != self.memory:
            self.memory = lent
            self.cases.append(lent)

    def turn(self, table):
        """The table to lend: T, the identity, or one's bytes."""
        if table != self.table:
            self.table = table
            halves = [case(LOWER, table[:65536]), case(UPPER, table[65536:])] if isinstance(table, bytes) else []
            self.cases += halves or [case(TABLE_T if table == "T" else IDENTITY)]

    def units(self, count):
        units = struct.unpack("<65536H", self.table) if isinstance(self.table, bytes) else self.known[self.table]
        return (list(units) + [0])[:count]

    def add(self, chosen, marks=None):
        """A case, and the model's answer; it must be the one that the case says, where it says one."""
        self.lend(chosen.head, chosen.pool, chosen.cluster)
        self.turn(chosen.table)
        before = bytes([chosen.byte]) * chosen.marks
        answer, after = checked(chosen.head, chosen.pool, chosen.cluster, self.units(chosen.units), before)
        if chosen.answer not in (None, answer) or marks not in (None, after.hex() or "-"):
            sys.exit(f"{chosen.label}: {chosen.answer} {marks}, by the model {answer} {after.hex()}")
        label = f"{chosen.label}:"
        self.cases.append(case(CHECK, struct.pack("<III", chosen.marks, chosen.byte, chosen.units) + label.encode()))
        self.lines.append(f"{label} {answer} marks {after.hex() or '-'}\n")
        self.kinds[" ".join(answer.split(" ")[:2]) if answer.startswith("refused") else "passed"] += 1


def add_made(store):
    """Of the made directories, a few small ones for each answer and number of records; half of them are damaged."""
    seen = Counter()
    for k in range(8000):
        rng = random.Random(29 * 1000003 + k)
        d = damaged(rng, store.known) if k % 2 else well_formed(rng, store.known)
        if len(d.root) + len(d.pool) > MOST_BYTES or d.table not in "TI":
            continue
        chosen = Chosen(f"made {k}", None, d.root, d.pool, d.cluster, d.table, marks=len(d.pool) // 512 + rng.randrange(MORE + 1))
        chosen.byte = rng.choice([0xFF, 0xFF, 0xFF, 1, 0, 2])
        answer, _ = checked(d.root, d.pool, d.cluster, store.known[d.table], bytes(chosen.marks))
        kind = answer, k % 2
        if seen[kind] < (EACH_PASS if answer.startswith("passed") else EACH):
            seen[kind] += 1
            store.add(chosen)


def bits(bitmap, records):
    """A byte for each record: its bit of the bitmap."""
    n = int.from_bytes(bytes.fromhex(bitmap), "little")
    return bytes(n >> k & 1 for k in range(records))


def add_real(store, folder):
    for path in REAL:
        directory = folder / path
        params = json.loads((directory / "params.json").read_text())
        pool = lzma.open(directory / "pool.bin.xz").read() if (directory / "pool.bin.xz").exists() else b""
        answer = "{} {}".format(*params["checker"]["01"])
        head, table = (directory / "root.bin").read_bytes(), (folder / params["upcase"]).read_bytes()
        chosen = Chosen(path, answer, head, pool, params["cluster_size"], table)
        store.add(chosen, (bits(params["bitmap"], chosen.marks - MORE) + b"\xff" * MORE).hex())


def main():
    if len(sys.argv) != 2 or not Path(sys.argv[1]).is_dir():
        sys.exit(__doc__)
    store = Store(tables(random.Random(29))[1])
    add_stated(store)
    own = len(store.lines)
    for chosen in boundaries():
        store.add(chosen)
    hand = len(store.lines)
    add_made(store)
    made = len(store.lines)
    add_real(store, Path(sys.argv[1]))
    (HERE / "stdin").write_bytes(b"".join(store.cases))
    (HERE / "stdout").write_text("".join(store.lines))
    size = sum(map(len, store.cases))
    print(f"{own} answers that 01 states, {hand - own} at boundaries, {made - hand} made, {len(store.lines) - made} real; {size} bytes")
    print("by answer: " + ", ".join(f"{kind} {n}" for kind, n in sorted(store.kinds.items())))


main()
