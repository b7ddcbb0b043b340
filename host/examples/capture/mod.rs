//! Reading a capture, as tools/stick-to-capture writes it.

pub struct Directory {
    pub root: Vec<u8>,
    pub pool: Vec<u8>,
    pub cluster: usize,
}

/// A capture's fields: a tag, a length in two bytes, the bytes. 1 is the root, 2 the cluster size, 3 a record; 255 ends it.
pub fn read(capture: &[u8]) -> Option<Directory> {
    let mut directory = Directory { root: Vec::new(), pool: Vec::new(), cluster: 0 };
    let mut rest = capture;
    while let [tag, low, high, after @ ..] = rest {
        let (value, next) = after.split_at_checked(usize::from(u16::from_le_bytes([*low, *high])))?;
        match tag {
            1 => directory.root = value.to_vec(),
            2 => directory.cluster = u32::from_le_bytes(value.try_into().ok()?) as usize,
            3 => directory.pool.extend(value),
            255 => return Some(directory),
            _ => return None,
        }
        rest = next;
    }
    None
}
