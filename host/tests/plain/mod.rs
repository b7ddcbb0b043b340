//! Listing, lookup and check in plain safe Rust, written from 01 alone. Nothing here is proved.
//! The tests compare the library's answers with these, and the benchmark its time.

/// 01's number of a refusal.
pub type Number = u64;

/// A refusal with the count of records opened before it.
#[derive(Clone, Copy, Debug, PartialEq, Eq)]
pub struct Refused {
    pub number: Number,
    pub opened: u64,
}

const LEVELS: usize = 8;
const ENTRY_HEADER: usize = 16;
const KEY_HEADER: usize = 66;
const TABLE: usize = 65_536;

fn u16_at(bytes: &[u8], at: usize) -> u16 {
    u16::from_le_bytes([bytes[at], bytes[at + 1]])
}

fn u32_at(bytes: &[u8], at: usize) -> u64 {
    u64::from(u32::from_le_bytes(bytes[at..at + 4].try_into().unwrap()))
}

fn i64_at(bytes: &[u8], at: usize) -> i64 {
    i64::from_le_bytes(bytes[at..at + 8].try_into().unwrap())
}

/// The slice that holds an entry.
#[derive(Clone, Copy, Debug, PartialEq, Eq)]
pub enum Holder {
    Root,
    Pool,
}

/// An entry: its bytes, and where they lie.
#[derive(Clone, Copy, Debug, PartialEq, Eq)]
pub struct Entry<'a> {
    pub bytes: &'a [u8],
    pub holder: Holder,
    pub offset: usize,
}

impl<'a> Entry<'a> {
    /// Record number and sequence.
    pub fn reference(&self) -> (u64, u16) {
        (u64::from(u16_at(self.bytes, 4)) << 32 | u32_at(self.bytes, 0), u16_at(self.bytes, 6))
    }

    /// The name in the key, and its namespace; 9 and 18.
    pub fn file_name(&self) -> Option<Result<(&'a [u8], u8), Number>> {
        let key = self.key().transpose()?;
        Some(key.and_then(|key| name_of(key).map(|name| (name, key[65]))))
    }

    fn has_subnode(&self) -> bool {
        self.bytes[12] & 1 != 0
    }

    fn is_last(&self) -> bool {
        self.bytes[12] & 2 != 0
    }

    /// The key, if there is one; 9 where it ends outside the entry.
    fn key(&self) -> Result<Option<&'a [u8]>, Number> {
        let length = usize::from(u16_at(self.bytes, 10));
        if length == 0 || self.is_last() {
            return Ok(None);
        }
        self.bytes.get(ENTRY_HEADER..ENTRY_HEADER + length).map(Some).ok_or(9)
    }

    /// The subnode's VCN, if there is one; 9 where it ends outside the entry.
    fn subnode(&self) -> Result<Option<i64>, Number> {
        if !self.has_subnode() {
            return Ok(None);
        }
        let at = self.bytes.len().saturating_sub(8).max(ENTRY_HEADER);
        if at + 8 > self.bytes.len() {
            return Err(9);
        }
        Ok(Some(i64_at(self.bytes, at)))
    }
}

/// The bytes of the name in a key; 18 where it is no file name.
pub fn name_of(key: &[u8]) -> Result<&[u8], Number> {
    if key.len() < KEY_HEADER || key[65] > 3 {
        return Err(18);
    }
    key.get(KEY_HEADER..KEY_HEADER + 2 * usize::from(key[64])).ok_or(18)
}

/// A node and how far it has been read. In the root `bytes` ends at the used end, in a record at the record's end.
#[derive(Clone, Copy)]
struct Node<'a> {
    bytes: &'a [u8],
    next: usize,
    used: usize,
    holder: Holder,
    from: usize,
}

impl<'a> Node<'a> {
    /// The next entry, or none at the end; 8 where there is no whole entry.
    fn next_entry(&mut self) -> Result<Option<Entry<'a>>, Number> {
        if self.next >= self.used {
            return Ok(None);
        }
        let rest = &self.bytes[self.next..];
        if rest.len() < ENTRY_HEADER {
            return Err(8);
        }
        let length = usize::from(u16_at(rest, 8));
        if length < ENTRY_HEADER || length > rest.len() {
            return Err(8);
        }
        let entry = Entry { bytes: &rest[..length], holder: self.holder, offset: self.from + self.next };
        self.next = if entry.is_last() { usize::MAX } else { self.next + length };
        Ok(Some(entry))
    }
}

/// A directory as it is lent.
#[derive(Clone, Copy)]
pub struct Index<'a> {
    root: &'a [u8],
    pool: &'a [u8],
    cluster: usize,
}

/// The result of a lookup: the entry or none, and the count of records opened.
pub type Finding<'a> = Result<(Option<Entry<'a>>, u64), Refused>;

impl<'a> Index<'a> {
    pub fn new(root: &'a [u8], pool: &'a [u8], cluster: usize) -> Self {
        Self { root, pool, cluster }
    }

    fn record_size(&self) -> usize {
        u32_at(self.root, 8) as usize
    }

    /// The root's node; 1 to 7.
    fn open_root(&self) -> Result<Node<'a>, Number> {
        let length = self.root.len() as u64;
        if length < 32 {
            return Err(1);
        }
        let start = 16 + u32_at(self.root, 16);
        let used = 16 + u32_at(self.root, 20);
        if start >= length {
            return Err(2);
        }
        if used > length {
            return Err(3);
        }
        if start > used {
            return Err(4);
        }
        if self.pool.is_empty() {
            if self.root[28] & 1 != 0 {
                return Err(5);
            }
        } else {
            let allowed = |size: usize, most: usize| size.is_power_of_two() && (512..=most).contains(&size);
            if !allowed(self.record_size(), 4096) || !allowed(self.cluster, 65_536) {
                return Err(6);
            }
            if self.pool.len() % self.record_size() != 0 {
                return Err(7);
            }
        }
        let used = used as usize;
        Ok(Node { bytes: &self.root[..used], next: start as usize, used, holder: Holder::Root, from: 0 })
    }

    /// The number of the record where a VCN lies; 13.
    fn place(&self, vcn: i64) -> Result<usize, Number> {
        let size = self.record_size();
        let from = usize::try_from(vcn).ok().and_then(|v| v.checked_mul(self.cluster)).ok_or(13u64)?;
        if from % size != 0 || from >= self.pool.len() {
            return Err(13);
        }
        Ok(from / size)
    }

    /// The node of a record that a VCN leads to; 14 to 17.
    fn open_record(&self, number: usize, vcn: i64) -> Result<Node<'a>, Number> {
        let size = self.record_size();
        let from = number * size;
        let bytes = &self.pool[from..from + size];
        if &bytes[..4] != b"INDX" {
            return Err(14);
        }
        let allocated = u32_at(bytes, 32);
        if 24 + allocated > size as u64 {
            return Err(15);
        }
        let index_size = u32_at(bytes, 28);
        if index_size > allocated {
            return Err(16);
        }
        if i64_at(bytes, 16) != vcn {
            return Err(17);
        }
        let next = 24 + u32_at(bytes, 24) as usize;
        Ok(Node { bytes, next, used: 24 + index_size as usize, holder: Holder::Pool, from })
    }

    /// Opens a subnode for listing or lookup; 10 to 17.
    fn open_sub(&self, vcn: i64, level: usize, opened: u64, allowance: u64) -> Result<Node<'a>, Number> {
        if self.pool.is_empty() {
            return Err(10);
        }
        if level >= LEVELS {
            return Err(11);
        }
        if opened >= allowance {
            return Err(12);
        }
        self.open_record(self.place(vcn)?, vcn)
    }

    pub fn entries(&self, allowance: u64) -> Entries<'a> {
        Entries { index: *self, levels: Vec::with_capacity(LEVELS), begun: false, refused: false, opened: 0, allowance }
    }

    pub fn find(&self, table: &[u16], name: &[u16], allowance: u64) -> Finding<'a> {
        let mut opened = 0;
        let found = self.descend(table, name, allowance, &mut opened);
        found.map(|entry| (entry, opened)).map_err(|number| Refused { number, opened })
    }

    fn descend(&self, table: &[u16], name: &[u16], allowance: u64, opened: &mut u64) -> Result<Option<Entry<'a>>, Number> {
        let table: &[u16; TABLE] = table.try_into().map_err(|_| 19u64)?;
        if name.len() > 255 {
            return Err(20);
        }
        let mut node = self.open_root()?;
        let mut level = 1;
        loop {
            let Some(entry) = node.next_entry()? else { return Ok(None) };
            if let Some(key) = entry.key()? {
                match compare(table, name.iter().copied(), units(name_of(key)?)) {
                    std::cmp::Ordering::Equal => return Ok(Some(entry)),
                    std::cmp::Ordering::Greater => continue,
                    std::cmp::Ordering::Less => {}
                }
            }
            let Some(vcn) = entry.subnode()? else { return Ok(None) };
            node = self.open_sub(vcn, level, *opened, allowance)?;
            *opened += 1;
            level += 1;
        }
    }

    /// The checker: the count of records reached, or the first fault; and the marks.
    pub fn check(&self, table: &[u16], marks: &mut [u8]) -> Result<u64, Refused> {
        let before = |number| Refused { number, opened: 0 };
        let table: &[u16; TABLE] = table.try_into().map_err(|_| before(19))?;
        let node = self.open_root().map_err(before)?;
        let records = if self.pool.is_empty() { 0 } else { self.pool.len() / self.record_size() };
        let marks = marks.get_mut(..records).ok_or(before(21))?;
        marks.fill(0);
        let mut check = Check { index: *self, table, marks, opened: 0, previous: None };
        let result = check.node(node, LEVELS);
        let opened = check.opened;
        if let Err(number) = result {
            check.marks.fill(0);
            return Err(Refused { number, opened });
        }
        Ok(opened)
    }
}

fn units(name: &[u8]) -> impl Iterator<Item = u16> + '_ {
    name.chunks_exact(2).map(|pair| u16::from_le_bytes([pair[0], pair[1]]))
}

fn compare(table: &[u16; TABLE], a: impl Iterator<Item = u16>, b: impl Iterator<Item = u16>) -> std::cmp::Ordering {
    a.map(|unit| table[usize::from(unit)]).cmp(b.map(|unit| table[usize::from(unit)]))
}

struct Level<'a> {
    node: Node<'a>,
    due: Option<Entry<'a>>,
}

/// The listing; ends after its first refusal.
pub struct Entries<'a> {
    index: Index<'a>,
    levels: Vec<Level<'a>>,
    begun: bool,
    refused: bool,
    pub opened: u64,
    allowance: u64,
}

impl<'a> Entries<'a> {
    fn step(&mut self) -> Result<Option<Entry<'a>>, Number> {
        if !self.begun {
            self.begun = true;
            self.levels.push(Level { node: self.index.open_root()?, due: None });
        }
        while let Some(level) = self.levels.last_mut() {
            if let Some(entry) = level.due.take() {
                return Ok(Some(entry));
            }
            let Some(entry) = level.node.next_entry()? else {
                self.levels.pop();
                continue;
            };
            let yielded = (!entry.is_last()).then_some(entry);
            if let Some(vcn) = entry.subnode()? {
                level.due = yielded;
                let node = self.index.open_sub(vcn, self.levels.len(), self.opened, self.allowance)?;
                self.opened += 1;
                self.levels.push(Level { node, due: None });
            } else if yielded.is_some() {
                return Ok(yielded);
            }
        }
        Ok(None)
    }
}

impl<'a> Iterator for Entries<'a> {
    type Item = Result<Entry<'a>, Refused>;

    fn next(&mut self) -> Option<Self::Item> {
        if self.refused {
            return None;
        }
        let item = self.step().transpose()?;
        self.refused = item.is_err();
        Some(item.map_err(|number| Refused { number, opened: self.opened }))
    }
}

struct Check<'a, 'm> {
    index: Index<'a>,
    table: &'m [u16; TABLE],
    marks: &'m mut [u8],
    opened: u64,
    previous: Option<&'a [u8]>,
}

impl<'a> Check<'a, '_> {
    fn node(&mut self, mut node: Node<'a>, levels: usize) -> Result<(), Number> {
        while let Some(entry) = node.next_entry()? {
            let end = entry.offset - node.from + entry.bytes.len();
            if end > node.used || (entry.is_last() && end != node.used) {
                return Err(23);
            }
            let key = entry.key()?;
            if key.is_none() && !entry.is_last() {
                return Err(24);
            }
            let name = key.map(name_of).transpose()?;
            if let Some(vcn) = entry.subnode()? {
                self.subnode(vcn, levels)?;
            }
            let Some(name) = name else { return Ok(()) };
            let falls = |previous| compare(self.table, units(name), units(previous)).is_lt();
            if self.previous.is_some_and(falls) {
                return Err(25);
            }
            self.previous = Some(name);
        }
        Err(23)
    }

    fn subnode(&mut self, vcn: i64, levels: usize) -> Result<(), Number> {
        if self.index.pool.is_empty() {
            return Err(10);
        }
        if levels == 1 {
            return Err(11);
        }
        let number = self.index.place(vcn)?;
        if self.marks[number] != 0 {
            return Err(22);
        }
        let node = self.index.open_record(number, vcn)?;
        self.marks[number] = 1;
        self.opened += 1;
        self.node(node, levels - 1)
    }
}
