//! Sound directories of any size, made for tests and measurements.

/// A directory: what is lent.
#[derive(Clone)]
pub struct Directory {
    pub root: Vec<u8>,
    pub pool: Vec<u8>,
    pub cluster: usize,
}

/// Sizes of a tree to make; the cluster is at most the record, so that every record has a VCN.
#[derive(Clone, Copy)]
pub struct Sizes {
    pub record: usize,
    pub cluster: usize,
    /// Bytes that the root may have.
    pub root: usize,
    /// Levels more than are needed.
    pub extra: usize,
}

/// What goes into a node: the bytes of an entry without its VCN, and the VCN.
struct Item {
    head: Vec<u8>,
    vcn: Option<u64>,
}

impl Item {
    fn new(reference: u64, name: &[u16]) -> Self {
        let mut head = vec![0; 16 + 66];
        head[..8].copy_from_slice(&reference.to_le_bytes());
        head[10..12].copy_from_slice(&((66 + 2 * name.len()) as u16).to_le_bytes());
        head[16 + 64] = name.len() as u8;
        head[16 + 65] = 1;
        head.extend(name.iter().flat_map(|unit| unit.to_le_bytes()));
        head.resize(head.len().next_multiple_of(8), 0);
        Self { head, vcn: None }
    }

    fn last(vcn: Option<u64>) -> Self {
        let mut head = vec![0; 16];
        head[12] = 2;
        Self { head, vcn }
    }

    fn size(&self) -> usize {
        self.head.len() + if self.vcn.is_some() { 8 } else { 0 }
    }

    fn write(&self, to: &mut Vec<u8>) {
        let from = to.len();
        to.extend(&self.head);
        to[from + 8..from + 10].copy_from_slice(&(self.size() as u16).to_le_bytes());
        if let Some(vcn) = self.vcn {
            to[from + 12] |= 1;
            to.extend(vcn.to_le_bytes());
        }
    }
}

fn header(to: &mut [u8], start: usize, used: usize, allocated: usize, large: bool) {
    for (at, number) in [start, used, allocated, usize::from(large)].into_iter().enumerate() {
        to[4 * at..4 * at + 4].copy_from_slice(&(number as u32).to_le_bytes());
    }
}

struct Maker {
    sizes: Sizes,
    pool: Vec<u8>,
}

impl Maker {
    /// Adds a record with these items; its VCN.
    fn record(&mut self, items: &[Item]) -> u64 {
        let Sizes { record, cluster, .. } = self.sizes;
        let start = first_entry(record);
        let vcn = (self.pool.len() / cluster) as u64;
        let mut bytes = vec![0; start];
        items.iter().for_each(|item| item.write(&mut bytes));
        let used = bytes.len();
        bytes.resize(record, 0);
        bytes[..4].copy_from_slice(b"INDX");
        bytes[16..24].copy_from_slice(&vcn.to_le_bytes());
        let large = items.iter().any(|item| item.vcn.is_some());
        header(&mut bytes[24..40], start - 24, used - 24, record - 24, large);
        self.pool.extend(bytes);
        vcn
    }

    /// Fills records with the items of a node, and leaves those that go between them, with the records below them.
    fn split(&mut self, items: Vec<Item>, last: Item) -> (Vec<Item>, Item) {
        let room = self.sizes.record - first_entry(self.sizes.record) - 24;
        let (mut above, mut filling, mut used) = (Vec::new(), Vec::new(), 0);
        for mut item in items {
            if used + item.size() <= room {
                used += item.size();
                filling.push(item);
            } else {
                filling.push(Item::last(item.vcn.take()));
                item.vcn = Some(self.record(&filling));
                above.push(item);
                (filling, used) = (Vec::new(), 0);
            }
        }
        filling.push(last);
        let below = self.record(&filling);
        (above, Item::last(Some(below)))
    }
}

/// Where the first entry of a record stands: behind the place of its update sequence.
fn first_entry(record: usize) -> usize {
    (40 + 2 + record / 512 * 2usize).next_multiple_of(8)
}

/// A sound directory of these names, which do not fall; the reference of name number n is `n + 64`.
pub fn directory(names: &[Vec<u16>], sizes: Sizes) -> Directory {
    let mut maker = Maker { sizes, pool: Vec::new() };
    let mut items: Vec<Item> = names.iter().zip(64..).map(|(name, n)| Item::new(n, name)).collect();
    let mut last = Item::last(None);
    while 32 + items.iter().map(Item::size).sum::<usize>() + last.size() > sizes.root {
        (items, last) = maker.split(items, last);
    }
    for _ in 0..sizes.extra {
        (items, last) = maker.split(items, last);
    }
    let mut root = vec![0; 32];
    items.push(last);
    items.iter().for_each(|item| item.write(&mut root));
    root[0] = 0x30;
    root[4] = 1;
    root[8..12].copy_from_slice(&(sizes.record as u32).to_le_bytes());
    root[12] = 1;
    let used = root.len() - 16;
    header(&mut root[16..32], 16, used, used, !maker.pool.is_empty());
    Directory { root, pool: maker.pool, cluster: sizes.cluster }
}

/// 01's table T: the identity but for 0x61 to 0x7A, which lose 32.
pub fn table_t() -> Vec<u16> {
    (0..=0xFFFF).map(|unit| if (0x61..=0x7A).contains(&unit) { unit - 32 } else { unit }).collect()
}
