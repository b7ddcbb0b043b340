"""Small indexes for tests, put together field by field."""
import struct


def key(name, namespace=1, units=None, extra=b""):
    """A file name key: 64 bytes of zeros, the number of units, the namespace, the units."""
    body = b"".join(struct.pack("<H", u) for u in (map(ord, name) if isinstance(name, str) else name))
    return bytes(64) + bytes([len(name) if units is None else units, namespace]) + body + extra


def entry(record=0, sequence=0, key=b"", flags=0, vcn=None, length=None, key_length=None):
    """An entry; with a VCN it has the flag and ends with it, at a multiple of 8."""
    body = key
    if vcn is not None:
        flags |= 1
        body += bytes(-(16 + len(key)) % 8) + struct.pack("<q", vcn)
    size = 16 + len(body) if length is None else length
    return struct.pack("<QHHHH", record | sequence << 48, size, len(key) if key_length is None else key_length, flags, 0) + body


def last(vcn=None):
    """A LAST_ENTRY."""
    return entry(flags=2, vcn=vcn)


def root(entries=b"", size=512, large=0, offset=16, used=None, allocated=None):
    """A root: type 0x30, rule 1, record size; node header at 16; entries."""
    used = offset + len(entries) if used is None else used
    allocated = used if allocated is None else allocated
    return struct.pack("<IIII", 0x30, 1, size, 1) + struct.pack("<IIII", offset, used, allocated, large) + entries


def record(vcn, entries=b"", size=512, offset=40, used=None, allocated=None, signature=b"INDX", filler=0):
    """A record with its update sequence undone."""
    used = offset + len(entries) if used is None else used
    allocated = size - 24 if allocated is None else allocated
    head = signature + bytes(12) + struct.pack("<q", vcn) + struct.pack("<IIII", offset, used, allocated, 0)
    return (head.ljust(24 + offset, b"\0") + entries).ljust(size, bytes([filler]))[:size]
