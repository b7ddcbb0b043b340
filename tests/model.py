"""01's rules in Python, written from 01 alone: what the proved functions are compared with. Nothing here is proved."""

POWERS = [512, 1024, 2048, 4096, 8192, 16384, 32768, 65536]
MOST_RECORD_SIZE = 4096


class Refused(Exception):
    """A numbered refusal."""

    def __init__(self, number):
        super().__init__(number)
        self.number = number


def number(s, at, n, signed=False):
    return int.from_bytes(s[at : at + n], "little", signed=signed)


class Node:
    """A node: its bytes, where its entries start, its used end; and where it lies: "root", or the VCN and the record's number."""

    def __init__(self, bytes_, start, used, vcn=None, record=None):
        self.bytes, self.start, self.used, self.vcn, self.record = bytes_, start, used, vcn, record


class Directory:
    def __init__(self, root, pool, cluster):
        self.root, self.pool, self.cluster = root, pool, cluster
        self.size = number(root, 8, 4) if len(root) >= 12 else 0

    def open_root(self):
        """1 to 7."""
        root, pool = self.root, self.pool
        if len(root) < 32:
            raise Refused(1)
        start, used = 16 + number(root, 16, 4), 16 + number(root, 20, 4)
        if start >= len(root):
            raise Refused(2)
        if used > len(root):
            raise Refused(3)
        if start > used:
            raise Refused(4)
        if not pool:
            if root[28] & 1:
                raise Refused(5)
        else:
            if self.size not in POWERS or self.size > MOST_RECORD_SIZE or self.cluster not in POWERS:
                raise Refused(6)
            if len(pool) % self.size:
                raise Refused(7)
        return Node(root[:used], start, used)

    def place(self, vcn):
        """13, or the record's number."""
        if vcn < 0 or not self.pool or self.size == 0 or self.cluster == 0:
            raise Refused(13)
        offset = vcn * self.cluster
        if offset % self.size or offset + self.size > len(self.pool):
            raise Refused(13)
        return offset // self.size

    def read_record(self, vcn, record):
        """14 to 17."""
        s = self.pool[record * self.size : (record + 1) * self.size]
        if s[:4] != b"INDX":
            raise Refused(14)
        used, allocated = number(s, 28, 4), number(s, 32, 4)
        if 24 + allocated > self.size:
            raise Refused(15)
        if used > allocated:
            raise Refused(16)
        if number(s, 16, 8, signed=True) != vcn:
            raise Refused(17)
        return Node(s, 24 + number(s, 24, 4), 24 + used, vcn, record)

    def open_record(self, vcn):
        """13 to 17."""
        return self.read_record(vcn, self.place(vcn))


def entry_at(node, at):
    """8, or the entry's bytes."""
    remains = len(node.bytes) - at
    if remains < 16:
        raise Refused(8)
    length = number(node.bytes, at + 8, 2)
    if length < 16 or length > remains:
        raise Refused(8)
    return node.bytes[at : at + length]


def vcn_of(entry):
    """The subnode VCN: None, 9, or the number."""
    if not entry[12] & 1:
        return None
    at = max(len(entry) - 8, 16)
    if at + 8 > len(entry):
        raise Refused(9)
    return number(entry, at, 8, signed=True)


LEVELS = 8


class Cursor:
    """A listing by steps, in 01's words. Each level: [VCN or None for the root, next start, stage], stage being
    "fresh", "going", ("due", start of the entry put off) or "ended"."""

    def __init__(self):
        self.levels, self.opened, self.kept = [[None, 0, "fresh"]], 0, None
        self.checks = self.reads = 0

    def open(self, directory, vcn):
        self.checks += 1
        return directory.open_root() if vcn is None else directory.open_record(vcn)

    def read(self, node, at):
        self.reads += 1
        return entry_at(node, at)

    def step(self, directory, allowance):
        """An entry as (VCN or None, offset, length), "end", or a refusal's number; with the count of records opened."""
        if self.kept is None and self.levels:
            try:
                self.check(directory)
                return self.walk(directory, allowance), self.opened
            except Refused as refused:
                self.kept, self.levels = refused.number, []
        return ("end" if self.kept is None else self.kept), self.opened

    def check(self, directory):
        directory.open_root()
        if len(self.levels) > LEVELS:
            raise Refused(11)
        for vcn, _, stage in self.levels:
            node = self.open(directory, vcn)
            if stage[0] == "due":
                self.read(node, stage[1])

    def walk(self, directory, allowance):
        while self.levels:
            level = self.levels[-1]
            vcn, at, stage = level
            if stage == "ended":
                self.levels.pop()
                continue
            node = self.open(directory, vcn)
            if stage[0] == "due":
                entry = self.read(node, stage[1])
                level[2] = "going"
                return vcn, stage[1], len(entry)
            if stage == "fresh":
                level[1], level[2] = node.start, "going"
                at = node.start
            if at >= node.used:
                self.levels.pop()
                continue
            entry = self.read(node, at)
            last, subnode = entry[12] & 2, vcn_of(entry)
            level[1] = at + len(entry)
            if subnode is None:
                if not last:
                    return vcn, at, len(entry)
                self.levels.pop()
                continue
            level[2] = "ended" if last else ("due", at)
            self.enter(directory, subnode, allowance)
        return "end"

    def enter(self, directory, vcn, allowance):
        if not directory.pool:
            raise Refused(10)
        if len(self.levels) >= LEVELS:
            raise Refused(11)
        if self.opened >= allowance:
            raise Refused(12)
        node = self.open(directory, vcn)
        self.opened += 1
        self.levels.append([vcn, node.start, "going"])


def key_of(entry):
    """The key's bytes, or None; 9."""
    length = number(entry, 10, 2)
    if length == 0 or entry[12] & 2:
        return None
    if 16 + length > len(entry):
        raise Refused(9)
    return entry[16 : 16 + length]


def name_of(key):
    """Namespace and units of a key; 18."""
    if len(key) < 66 or key[65] > 3 or 66 + 2 * key[64] > len(key):
        raise Refused(18)
    return key[65], [number(key, 66 + 2 * k, 2) for k in range(key[64])]


def parse_capture(s):
    """A capture's root, cluster size and pool; 26."""
    if len(s) > 65535:
        raise Refused(26)
    fields, at = [], 0
    while at < len(s):
        if at + 3 > len(s) or at + 3 + number(s, at + 1, 2) > len(s):
            raise Refused(26)
        size = number(s, at + 1, 2)
        fields.append((s[at], s[at + 3 : at + 3 + size]))
        at += 3 + size
    tags = [tag for tag, _ in fields]
    records = [body for tag, body in fields if tag == 3]
    if tags == [1, 255]:
        cluster = 0
    elif len(tags) > 3 and tags == [1, 2] + [3] * (len(tags) - 3) + [255] and len(fields[1][1]) == 4:
        cluster = number(fields[1][1], 0, 4)
    else:
        raise Refused(26)
    if fields[-1][1] or len(set(map(len, records))) > 1 or sum(map(len, records)) > 57344:
        raise Refused(26)
    return fields[0][1], cluster, b"".join(records)


def entry_line(entry):
    reference = number(entry, 0, 8)
    try:
        key = key_of(entry)
        text = "- -"
        if key is not None:
            namespace, units = name_of(key)
            text = f"{namespace} {''.join(f'{u:04X}' for u in units) or '.'}"
    except Refused:
        text = "- -"
    return f"{reference % 2**48} {reference >> 48} {text}\n"


def capture_output(s):
    """What the capture program prints."""
    lines = ["entries\n"]
    try:
        root, cluster, pool = parse_capture(s)
    except Refused as refused:
        return "".join(lines + [f"refused {refused.number}\n"])
    directory, cursor = Directory(root, pool, cluster), Cursor()
    while True:
        answer, opened = cursor.step(directory, 64)
        if answer == "end":
            return "".join(lines + [f"opened {opened}\n"])
        if not isinstance(answer, tuple):
            return "".join(lines + [f"refused {answer}\n"])
        vcn, at, size = answer
        holder = root if vcn is None else pool[directory.place(vcn) * directory.size :]
        lines.append(entry_line(holder[at : at + size]))
