"""Whole walks in Python: the listing and the lookup by 01's rules, and by the crate's rules, which mark each listed difference they meet;
and the checker by 01's rules, which the crate has not.

An answer is written as tests/answers.c writes it. The crate's rules are used only to explain an answer of the crate that is not ours.
"""
from model import LEVELS, POWERS, Directory, Node, Refused, entry_at, key_of, name_of, number, vcn_of

UNITS = 65536
MOST_BOOT_CLUSTER = 2**21

# The listed differences, by the rows of docs/DIFFERENCES.md.
DIFFERENCES = {
    "D1": "key of 66 or 67 bytes: here an empty name, in the crate 18",
    "D3": "entry length 0 to 12: here 8, the crate panics",
    "D4": "root entries start past the used end: here 4, the crate panics",
    "D5": "the same, large flag, no pool: here 4, in the crate 5",
    "D6": "record or cluster size not allowed: here 6, the crate does not look at it in time",
    "D7": "pool not whole records: here 7, the crate takes it",
    "D8": "record between two records: here 13, the crate opens it",
    "D9": "sizes whose sums wrap: here 15 or 16, the crate panics",
    "D10": "more than eight levels: here 11, the crate goes on",
    "D11": "a record that leads to itself: here 11, the crate never returns",
    "D12": "name over 255 units: here 20, the crate compares",
    "cap": "no difference: many records, where the comparison stops the crate's program",
}


class Stopped(Exception):
    """The crate panics or loops: how its answer ends."""


class Rules:
    """01's rules over one directory, counting the records opened."""

    most_units = 255

    def __init__(self, root, pool, cluster):
        self.directory, self.opened, self.met = Directory(root, pool, cluster), 0, []

    def start(self):
        return self.directory.open_root()

    def entry(self, node, at):
        return entry_at(node, at)

    def units(self, key):
        return name_of(key)[1]

    def enter(self, vcn, level):
        """The subnode's node, wanted at this level."""
        if not self.directory.pool:
            raise Refused(10)
        if level >= LEVELS:
            raise Refused(11)
        node = self.directory.open_record(vcn)
        self.opened += 1
        return node

    def seek(self, table, name):
        """19 and 20."""
        if len(table) != UNITS:
            raise Refused(19)
        if len(name) > self.most_units:
            raise Refused(20)


class CrateRules(Rules):
    """The crate's rules, as its published source has them."""

    def __init__(self, root, pool, cluster, cap):
        super().__init__(root, pool, cluster)
        self.cap, self.reads = cap, 0

    def meet(self, difference):
        self.met.append(difference)

    def boot(self):
        """The volume is opened before anything else: a cluster size that no boot sector may have is refused there."""
        cluster = self.directory.cluster
        if self.directory.pool and cluster not in POWERS:
            self.meet("D6")
            if cluster < 512 or cluster & (cluster - 1) or cluster > MOST_BOOT_CLUSTER:
                raise Refused(6)

    def start(self):
        self.boot()
        try:
            return self.directory.open_root()
        except Refused as refused:
            return self.start_anyway(refused)

    def start_anyway(self, refused):
        """What the crate does where 01 refuses the root."""
        directory = self.directory
        if refused.number == 4:
            large_alone = not directory.pool and directory.root[28] & 1
            self.meet("D5" if large_alone else "D4")
            raise Refused(5) if large_alone else Stopped("panic:index_root.rs:95")
        if refused.number not in (6, 7):
            raise refused
        self.meet(f"D{refused.number}")
        used = 16 + number(directory.root, 20, 4)
        return Node(directory.root[:used], 16 + number(directory.root, 16, 4), used)

    def entry(self, node, at):
        if len(node.bytes) - at >= 16:
            length = number(node.bytes, at + 8, 2)
            if length < 13:
                self.meet("D3")
                raise Stopped("panic:" + ("index_entry.rs:205" if length < 8 else "byteorder" if length < 10 else "index_entry.rs:194"))
        return entry_at(node, at)

    def units(self, key):
        units = name_of(key)[1]
        if len(key) < 68:
            self.meet("D1")
            raise Refused(18)
        return units

    def enter(self, vcn, level):
        if not self.directory.pool:
            raise Refused(10)
        if level >= LEVELS:
            self.meet("D10")
        record = self.read(vcn)
        self.check(record, vcn)
        self.opened += 1
        return Node(record, 24 + number(record, 24, 4), 24 + number(record, 28, 4), vcn, vcn * self.directory.cluster)

    def read(self, vcn):
        """The record's bytes, wherever they start."""
        directory, size = self.directory, self.directory.size
        offset = vcn * directory.cluster
        if not 0 <= offset < len(directory.pool):
            raise Refused(13)
        if size:
            self.reads += 1
            if self.reads > self.cap:
                self.give_up()
            if offset % size:
                self.meet("D8")
        if offset + size > len(directory.pool):
            raise Refused(13)
        return directory.pool[offset : offset + size]

    def give_up(self):
        """More reads than the oracle allows: a walk without end, if it has gone below the eighth level."""
        if not self.met:
            self.meet("cap")
        elif self.met[0] == "D10":
            self.met[0] = "D11"
        raise Stopped("loop")

    def check(self, record, vcn):
        if len(record) < 4:
            raise Stopped("odd")
        if record[:4] != b"INDX":
            raise Refused(14)
        if len(record) < 36:
            raise Stopped("odd")
        used, allocated = number(record, 28, 4), number(record, 32, 4)
        if 24 + allocated >= 2**32:
            self.meet("D9")
            raise Stopped("panic:index_record.rs:156")
        if 24 + allocated > len(record):
            raise Refused(15)
        if 24 + used >= 2**32:
            self.meet("D9")
            raise Stopped("panic:index_record.rs:167")
        if used > allocated:
            raise Refused(16)
        if number(record, 16, 8, signed=True) != vcn:
            raise Refused(17)

    def seek(self, table, name):
        self.boot()
        if len(table) != UNITS:
            raise Refused(19)
        if len(name) > self.most_units:
            self.meet("D12")


def written(rules, node, at, entry):
    if node.record is None:
        return f"root:{at}:{len(entry)}:{rules.opened}"
    start = node.vcn * rules.directory.cluster
    return f"pool:{start + at}:{len(entry)}:{rules.opened}"


def ended(rules, walk):
    """What a walk says, and how it ends where it is refused or stops."""
    said = []
    try:
        for word in walk:
            said.append(word)
    except Refused as refused:
        said.append(f"refused:{refused.number}:{rules.opened}")
    except Stopped as stopped:
        said.append(str(stopped))
    return " ".join(said)


def steps(rules, yields):
    levels, said = [[rules.start(), None, None]], 0
    levels[0][1] = levels[0][0].start
    while levels:
        node, at, due = levels[-1]
        if due is not None:
            yield written(rules, node, *due)
            said, levels[-1][2] = said + 1, None
            if said == yields:
                yield f"cut:{rules.opened}"
                return
            continue
        if at is None or at >= node.used:
            levels.pop()
            continue
        entry = rules.entry(node, at)
        last, vcn = entry[12] & 2, vcn_of(entry)
        levels[-1][1] = None if last else at + len(entry)
        if not last:
            levels[-1][2] = (at, entry)
        if vcn is not None:
            below = rules.enter(vcn, len(levels))
            levels.append([below, below.start, None])
    yield f"end:{rules.opened}"


def listing(rules, yields):
    """A listing's answer, cut after so many entries."""
    return ended(rules, steps(rules, yields))


def order(table, name, units):
    """-1, 0 or 1 as the name is less, equal or greater."""
    a, b = [table[u] for u in name], [table[u] for u in units]
    return (a > b) - (a < b)


def search(rules, table, name):
    rules.seek(table, name)
    node, level = rules.start(), 1
    at = node.start
    while at < node.used:
        entry = rules.entry(node, at)
        key = key_of(entry)
        less = -1 if key is None else order(table, name, rules.units(key))
        if less == 0:
            yield "found:" + written(rules, node, at, entry)
            return
        if less > 0:
            at += len(entry)
            continue
        vcn = vcn_of(entry)
        if vcn is None:
            break
        node, level = rules.enter(vcn, level), level + 1
        at = node.start
    yield f"missing:{rules.opened}"


def lookup(rules, table, name):
    """A lookup's answer."""
    return ended(rules, search(rules, table, name))


class Check:
    """The checker's walk by 01's rules: the records reached and the names listed, so far."""

    def __init__(self, directory, table):
        self.directory, self.table, self.reached, self.names = directory, table, [], []

    def node(self, node, level):
        at = node.start
        while at < node.used:
            entry = entry_at(node, at)
            at += len(entry)
            last = entry[12] & 2
            if at > node.used or (last and at != node.used):
                raise Refused(23)
            units = None if last else self.units(entry)
            vcn = vcn_of(entry)
            if vcn is not None:
                self.subnode(vcn, level)
            if last:
                return
            if self.names and order(self.table, units, self.names[-1]) < 0:
                raise Refused(25)
            self.names.append(units)
        raise Refused(23)

    def units(self, entry):
        key = key_of(entry)
        if key is None:
            raise Refused(24)
        return name_of(key)[1]

    def subnode(self, vcn, level):
        if not self.directory.pool:
            raise Refused(10)
        if level >= LEVELS:
            raise Refused(11)
        record = self.directory.place(vcn)
        if record in self.reached:
            raise Refused(22)
        below = self.directory.read_record(vcn, record)
        self.reached.append(record)
        self.node(below, level + 1)


def checked(root, pool, cluster, table, marks):
    """The checker's answer, `passed COUNT` or `refused NUMBER COUNT`, and the marks afterwards."""
    directory = Directory(root, pool, cluster)
    walk = Check(directory, table)
    try:
        if len(table) != UNITS:
            raise Refused(19)
        top = directory.open_root()
        records = len(pool) // directory.size if pool else 0
        if len(marks) < records:
            raise Refused(21)
    except Refused as refused:
        return f"refused {refused.number} 0", marks
    try:
        walk.node(top, 1)
    except Refused as refused:
        return f"refused {refused.number} {len(walk.reached)}", bytes(records) + marks[records:]
    return f"passed {len(walk.reached)}", bytes(k in walk.reached for k in range(records)) + marks[records:]
