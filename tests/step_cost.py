#!/usr/bin/env python3
"""What a step of a listing costs: record checks and entry reads per step, counted in the model, for directories of several sizes."""
from build import entry, last, record, root
from model import Cursor, Directory

PER_RECORD = 250


def directory(entries):
    """Three levels: a root over one record, over as many records as it takes."""
    leaves = -(-entries // (PER_RECORD + 1))
    middle = record(0, b"".join(entry(1, vcn=k + 1) for k in range(leaves - 1)) + last(leaves), size=4096)
    below = [record(k + 1, entry(2) * PER_RECORD + last(), size=4096, offset=40) for k in range(leaves)]
    return Directory(root(last(0), size=4096, large=1), middle + b"".join(below), 512 * 8)


for entries in (100, 1000, 10000):
    listed, cursor = 0, Cursor()
    most_checks = most_reads = 0
    where = directory(entries)
    while True:
        checks, reads = cursor.checks, cursor.reads
        answer, opened = cursor.step(where, 2**64 - 1)
        most_checks = max(most_checks, cursor.checks - checks)
        most_reads = max(most_reads, cursor.reads - reads)
        if not isinstance(answer, tuple):
            break
        listed += 1
    per = f"{cursor.checks / (listed + 1):.2f} checks and {cursor.reads / (listed + 1):.2f} reads a step"
    print(f"{listed} entries, {opened} records opened: {per}; at most {most_checks} and {most_reads}; ended with {answer}")
