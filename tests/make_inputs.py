"""Directories for the comparison with the crate, made at random from a seed: well-formed trees, and trees damaged at what 01 looks at."""
import random
import struct

ASCII = [0x41, 0x42, 0x43, 0x5A, 0x5B, 0x5F, 0x60, 0x61, 0x62, 0x63, 0x7A, 0x7B, 0x30, 0x2E]
STRANGE = [0, 0x7F, 0xC0, 0xE0, 0xFF, 0x178, 0x3B1, 0x391, 0x20AC, 0xD7FF, 0xD800, 0xDBFF, 0xDC00, 0xDFFF, 0xE000, 0xFFFE, 0xFFFF]
CLUSTERS = [512] * 10 + [1024] * 4 + [2048] * 2 + [4096] * 3 + [8192, 16384, 32768, 65536]
SIZES = [512] * 8 + [1024] * 4 + [2048, 4096]
BAD_SIZES = [0, 3, 4, 6, 20, 35, 36, 64, 256, 511, 513, 768, 4097, 8192, 65536]
BAD_CLUSTERS = [1, 256, 511, 768, 1536, 131072, 2097152]
WIDE = 2**32


class Directory:
    """A directory's bytes, its names, and where its entries start."""

    def __init__(self):
        self.root, self.pool, self.cluster, self.size = b"", b"", 512, 512
        self.table, self.names, self.entries, self.nodes = "T", [], [], []


def tables(rng):
    """The run's tables: their lines, and each as a list."""
    units = list(range(65536))
    small = [u - 32 if 0x61 <= u <= 0x7A else u for u in units]
    known, lines = {"T": small, "I": units}, []
    alphabet = ASCII + STRANGE
    for k in range(8):
        base = rng.choice("TI")
        pairs = {u: rng.choice(alphabet + [rng.randrange(65536)]) for u in rng.sample(alphabet, rng.randint(3, 20))}
        lines.append(f"table M{k} map {base} " + ",".join(f"{a:04X}={b:04X}" for a, b in pairs.items()))
        known[f"M{k}"] = [pairs.get(u, v) for u, v in enumerate(known[base])]
    known["R"] = [rng.randrange(65536) for _ in units]
    known["Z"] = [0] * 65536
    known["short"], known["long"] = units[:-1], units + [0]
    for name in ("R", "Z", "short", "long"):
        lines.append(f"table {name} " + "".join(f"{u:04X}" for u in known[name]))
    return "\n".join(lines) + "\n", known


def some_name(rng, longest):
    n = rng.choice([0, 1, 1, 2, 2, 3, 3, 4, 6, 9]) if rng.random() < 0.97 else rng.choice([40, 100, 160, 254, 255])
    letters = ASCII if rng.random() < 0.8 else ASCII + STRANGE
    return tuple(rng.choices(letters, k=min(n, longest)))


def varied(rng, name):
    """The same name with other cases."""
    return tuple(u ^ 0x20 if 0x41 <= u <= 0x7A and rng.random() < 0.5 else u for u in name)


def grow(rng, names, depth, most, empty):
    """A node as a list of (name or None, subnode or None), the last being the LAST_ENTRY. Most: entries a node may have; empty: how
    often a subnode without names is made."""
    if depth == 1 or (len(names) <= most and rng.random() < 0.1 * (1 - empty)):
        return [(name, None) for name in names[:most]] + [(None, None)]
    count = min(rng.randint(0, most), len(names))
    cuts = sorted(rng.sample(range(len(names)), count))
    node, at = [], 0
    for cut in cuts + [len(names)]:
        below = grow(rng, names[at:cut], depth - 1, most, empty) if cut > at or rng.random() < empty else None
        node.append((names[cut] if cut < len(names) else None, below))
        at = cut + 1
    return node


def key_of(rng, name):
    if len(name) == 0 and rng.random() < 0.9:
        return rng.randbytes(64) + bytes([0, rng.randrange(4)]) + bytes(2)
    return rng.randbytes(64) + bytes([len(name), rng.randrange(4)]) + struct.pack(f"<{len(name)}H", *name)


def entry_bytes(rng, name, vcn):
    key = b"" if name is None else key_of(rng, name)
    flags = (2 if name is None else 0) | (0 if vcn is None else 1)
    body = key + bytes(-len(key) % 8) + (b"" if vcn is None else struct.pack("<q", vcn))
    return struct.pack("<QHHHH", rng.getrandbits(64), 16 + len(body), len(key), flags, rng.getrandbits(16)) + body


def number_nodes(node, found):
    """The subnodes below a node, in order of meeting."""
    for _, below in node:
        if below is not None:
            found.append(below)
            number_nodes(below, found)
    return found


def lay(d, rng, node, places, holder, start):
    """A node's entries as bytes; notes where each starts."""
    out = bytearray()
    for name, below in node:
        vcn = None if below is None else places[id(below)]
        entry = entry_bytes(rng, name, vcn)
        d.entries.append((holder, start + len(out), len(entry), vcn is not None))
        out += entry
    return bytes(out)


def record_bytes(size, vcn, offset, entries, filler):
    head = b"INDX" + bytes(12) + struct.pack("<qIIII", vcn, offset, offset + len(entries), size - 24, 0)
    return (head + bytes(offset - 16) + entries).ljust(size, filler)


def build(rng, d, top):
    """The tree's bytes: root and pool, each record at a place of its own."""
    nodes = number_nodes(top, [])
    step = max(d.size, d.cluster)
    order = list(range(len(nodes) + (rng.random() < 0.2)))
    rng.shuffle(order)
    places = {id(node): at * step // d.cluster for node, at in zip(nodes, order)}
    pool = bytearray(step * len(order))
    for node, at in zip(nodes, order):
        offset = rng.choice([16, 40, 40])
        entries = lay(d, rng, node, places, "pool", at * step + 24 + offset)
        filler = rng.choice([b"\0", b"\1", b"\xff"])
        pool[at * step : at * step + d.size] = record_bytes(d.size, places[id(node)], offset, entries, filler)
        d.nodes.append((at * step, places[id(node)]))
    d.pool = bytes(pool)
    entries = lay(d, rng, top, places, "root", 32)
    flags = 1 if d.pool else 0
    d.root = struct.pack("<IIIIIIII", 0x30, 1, d.size, 1, 16, 16 + len(entries), 16 + len(entries), flags) + entries


def well_formed(rng, known):
    d = Directory()
    d.size, d.cluster = rng.choice(SIZES), rng.choice(CLUSTERS)
    d.table = rng.choice(["T"] * 4 + ["I"] * 2 + [t for t in known if len(known[t]) == 65536])
    longest = 150 if d.size == 512 else 255
    count = rng.choice([0, 1, 2, 4, 6, 8, 12, 20]) if rng.random() < 0.99 else 120
    names = sorted({some_name(rng, longest) for _ in range(count)}, key=lambda n: [known[d.table][u] for u in n])
    widest = 106 + 2 * max([len(n) for n in names], default=0)
    most = max(1, (d.size - 24 - 40 - 24) // (widest + 8))
    deep = rng.choice([1, 1, 2, 2, 2, 3, 3, 4]) if rng.random() < 0.95 else rng.choice([7, 8, 8, 9])
    if d.cluster > 4096:
        names, deep = names[:3], min(deep, 2)
    fan, empty = (rng.choice([1, 2, 3, 8]), 0.15) if deep < 7 else (1, 0.45)
    top = grow(rng, names, deep, min(most, fan), empty)
    d.names = names
    build(rng, d, top)
    return d


def put(s, at, value, width):
    """The bytes with a number written over some of them, where they are long enough."""
    if at < 0 or at + width > len(s):
        return s
    return s[:at] + (value % 256**width).to_bytes(width, "little") + s[at + width :]


def change(d, holder, at, value, width):
    if holder == "root":
        d.root = put(d.root, at, value, width)
    else:
        d.pool = put(d.pool, at, value, width)


def damage_root(rng, d):
    n = len(d.root)
    what = rng.randrange(6)
    if what == 5:
        d.root, d.pool = put(d.root, 28, rng.choice([1, 1, 0]), 1), b""
        what = rng.choice([1, 2, 2])
    if what == 0:
        d.root = put(d.root, 8, rng.choice(SIZES + BAD_SIZES), 4)
    elif what == 1:
        starts = [0, 8, 15, 16, 17, 24, 32, 40, n - 33, n - 32, n - 17, n - 16, n - 15, WIDE - 1, WIDE - 16]
        d.root = put(d.root, 16, rng.choice(starts), 4)
    elif what == 2:
        ends = [0, 14, 15, 16, 17, 31, 32, n - 40, n - 24, n - 17, n - 16, n - 15, WIDE - 1, WIDE - 16]
        d.root = put(d.root, 20, rng.choice(ends), 4)
    elif what == 3:
        d.root = put(d.root, 28, rng.choice([0, 1, 2, 3, 254, 255]), 1)
    else:
        d.root = put(d.root, rng.choice([0, 4, 12, 24]), rng.getrandbits(32), 4)


def damage_length(rng, d):
    """Root or pool longer, shorter or gone."""
    if rng.random() < 0.5:
        n = rng.choice([0, 1, 31, 32, 33, 40, 48, len(d.root) - 1, len(d.root) - 8, len(d.root) - 16])
        d.root = d.root[: max(n, 0)] if rng.random() < 0.7 else d.root + rng.randbytes(rng.choice([1, 8, 16, 40]))
    else:
        what = rng.randrange(6)
        if what < 3:
            d.pool = b""
        elif what == 3:
            d.pool = d.pool[: rng.randrange(len(d.pool) // d.size + 1) * d.size]
        elif what == 4:
            d.pool = d.pool[: max(0, len(d.pool) - rng.choice([1, 16, 256, 512]))]
        else:
            d.pool += rng.choice([bytes(d.size), rng.randbytes(d.size), bytes(512), b"\0"])


def damage_record(rng, d):
    if not d.nodes:
        return damage_root(rng, d)
    at, vcn = rng.choice(d.nodes)
    what = rng.randrange(6)
    if what == 0:
        d.pool = put(d.pool, at + rng.randrange(4), rng.choice([0, 0x69, 0x49, 0x42, 0xFF]), 1)
    elif what == 1:
        d.pool = put(d.pool, at + 16, rng.choice([vcn + 1, vcn - 1, -1, vcn + WIDE, 0, rng.choice(d.nodes)[1], -(2**63)]), 8)
    elif what == 2:
        starts = [0, 8, 15, 16, 17, 32, 40, 41, 48, 56, d.size - 40, d.size - 39, d.size - 24, d.size, WIDE - 1]
        d.pool = put(d.pool, at + 24, rng.choice(starts), 4)
    elif what == 3:
        ends = [0, 16, 39, 40, 41, 56, 57, 64, 120, d.size - 25, d.size - 24, d.size - 23, WIDE - 25, WIDE - 24, WIDE - 1]
        d.pool = put(d.pool, at + 28, rng.choice(ends), 4)
    elif what == 4:
        allocated = [0, 40, 56, 100, d.size - 25, d.size - 24, d.size - 23, d.size, WIDE - 25, WIDE - 24, WIDE - 1]
        d.pool = put(d.pool, at + 32, rng.choice(allocated), 4)
    else:
        d.pool = put(d.pool, at + rng.choice([4, 6, 8, 12, 36]), rng.getrandbits(16), 2)


def damage_vcn(rng, d, holder, at, length):
    step = max(d.size, d.cluster) // d.cluster
    count = len(d.pool) // max(d.size, d.cluster)
    near = [rng.choice(d.nodes)[1]] * 5 if d.nodes else []
    far = [-1, -(2**63), 2**63 - 1, 2**55, 2**54, 0, 1, step * count, step * (count - 1), step * count - 1, 2**52, -2]
    vcn = rng.choice(near + far)
    change(d, holder, at + max(length - 8, 16), vcn, 8)


def damage_entry(rng, d):
    holder, at, length, down = rng.choice(d.entries)
    what = rng.randrange(9)
    if what == 0:
        odd = [13, 14, 15, 16, 17, 23, 24, 25, 32, length - 8, length - 1, length + 1, length + 8, length + 16, 400, 511, 512, 65535]
        change(d, holder, at + 8, rng.choice(odd + ([rng.randrange(13)] if rng.random() < 0.3 else [])), 2)
    elif what == 1:
        change(d, holder, at + 10, rng.choice([0, 1, 2, 65, 66, 67, 68, 70, length - 17, length - 16, length - 15, length - 24, 65535]), 2)
    elif what == 2:
        change(d, holder, at + 12, rng.choice([0, 1, 2, 3, 4, 5, 6, 7, 0xFC, 0xFD, 0xFE, 0xFF]), 1)
    elif what == 3 or (what == 4 and down):
        if not down:
            change(d, holder, at + 12, rng.choice([1, 3]), 1)
        damage_vcn(rng, d, holder, at, length)
    elif what == 5:
        change(d, holder, at + 16 + 64, rng.choice([0, 1, 2, 3, 7, 100, 255]), 1)
    elif what == 6:
        change(d, holder, at + 16 + 65, rng.choice([0, 1, 2, 3, 4, 5, 255]), 1)
    elif what == 7:
        change(d, holder, at + 16 + 66 + 2 * rng.randrange(3), rng.choice(ASCII + STRANGE), 2)
    else:
        change(d, holder, at + rng.randrange(16), rng.randrange(256), 1)


def damage_anywhere(rng, d):
    for _ in range(rng.choice([1, 1, 4])):
        holder = "pool" if d.pool and rng.random() < 0.5 else "root"
        n = len(d.root if holder == "root" else d.pool)
        if n:
            change(d, holder, rng.randrange(min(n, rng.choice([64, 256, n]))), rng.randrange(256), 1)


def shorten(rng, d):
    """A small key length with an empty name, or an entry cut to fit its key exactly."""
    holder, at, length, _ = rng.choice(d.entries)
    change(d, holder, at + 16 + 64, 0, 1)
    change(d, holder, at + 10, rng.choice([66, 67, 68]), 2)


def sizes(rng, d):
    """Another cluster or record size over the same bytes."""
    if rng.random() < 0.15:
        d.cluster = rng.choice(BAD_CLUSTERS)
    elif rng.random() < 0.5:
        d.cluster = rng.choice(CLUSTERS)
    else:
        d.root = put(d.root, 8, rng.choice(SIZES), 4)


def random_bytes(rng, d):
    """Random bytes under headers that pass, or none at all."""
    d.size, d.cluster, d.nodes, d.entries = 512, 512, [(0, 0)], [("root", 32, 16, False)]
    d.root = rng.randbytes(rng.choice([0, 20, 31, 32, 40, 48, 64, 200]))
    d.pool = rng.randbytes(512 * rng.choice([0, 1, 2]))
    if rng.random() < 0.8:
        d.root = struct.pack("<IIIIIIII", 0x30, 1, 512, 1, 16, max(16, len(d.root) - 16), 0, rng.randrange(2)) + d.root[32:]
    if d.pool and rng.random() < 0.8:
        d.pool = record_bytes(512, 0, 40, b"", b"\0")[:28] + struct.pack("<II", 488, 488) + d.pool[36:]
        change(d, "root", 44, rng.choice([1, 3]), 1)
        change(d, "root", 40, 24, 2)
        change(d, "root", 48, 0, 8)


DAMAGES = [damage_entry] * 10 + [damage_record] * 4 + [damage_root] * 2 + [damage_length, damage_anywhere, shorten, sizes]


def damaged(rng, known):
    d = well_formed(rng, known)
    if d.cluster > 8192 and rng.random() < 0.7:
        d = well_formed(rng, known)
    if rng.random() < 0.04:
        random_bytes(rng, d)
    for _ in range(rng.choice([1, 1, 1, 2, 3])):
        rng.choice(DAMAGES)(rng, d)
    return d


def sought(rng, d):
    """A name to look up: one that is there, in this or another case, or one that is not."""
    pick = rng.random()
    if d.names and pick < 0.6:
        name = rng.choice(d.names)
        return varied(rng, name) if rng.random() < 0.6 else name
    if pick < 0.9:
        return some_name(rng, 255)
    if pick < 0.98:
        return rng.choice([(), (0xD800,), (0xDC00, 0xD800), (0x41,) * 255, (0x7A,) * 255])
    return (rng.choice([0x41, 0x7A]),) * rng.choice([254, 255, 256, 257, 300])


def units_text(name):
    return "".join(f"{u:04X}" for u in name) or "-"


def lines(rng, d, label):
    """The case lines of one directory: its listing and one or more lookups."""
    body = f"{d.cluster} {d.root.hex() or '-'} {d.pool.hex() or '-'}"
    made = [f"list {label}.l {body}"]
    for k in range(rng.choice([1, 2, 2, 3])):
        table = d.table if rng.random() < 0.99 else rng.choice(["short", "long"])
        made.append(f"find {label}.{k} {body} {units_text(sought(rng, d))} {table}")
    return made


def inputs(seed, first, count, known):
    """Case lines of the directories first to first + count, half of them damaged; each depends on the seed and its own number alone."""
    for k in range(first, first + count):
        rng = random.Random(seed * 1000003 + k)
        d = damaged(rng, known) if k % 2 else well_formed(rng, known)
        yield from lines(rng, d, str(k))
