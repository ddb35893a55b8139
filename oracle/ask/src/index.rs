//! The index of SQ names, by the words of requests 06 and 07 alone: neither side is asked. The library is held to it.

/// The answer for a name that no SQ has.
pub const NONE: u32 = u32::MAX;

/// The names of a list: each LF ends one, and bytes after the last LF are one more.
pub fn listed(list: &[u8]) -> impl Iterator<Item = &[u8]> {
    list.split_inclusive(|&b| b == b'\n').map(|name| name.strip_suffix(b"\n").unwrap_or(name))
}

/// A name's number: each byte makes it 33 times itself plus the byte.
pub fn number(name: &[u8]) -> u32 {
    name.iter().fold(0, |h: u32, &b| h.wrapping_mul(33).wrapping_add(b.into()))
}

/// The names in SQ order, and the slots: 0, or an ordinal plus one.
pub struct Index<'a> {
    names: Vec<&'a [u8]>,
    pub slots: Vec<u32>,
}

impl<'a> Index<'a> {
    /// The index of these names, which must all differ.
    pub fn new(names: Vec<&'a [u8]>) -> Self {
        let slots = vec![0; (2 * names.len()).next_power_of_two().max(2)];
        let mut index = Self { names, slots };
        for i in 0..index.names.len() {
            let mut at = index.first(index.names[i]);
            while index.slots[at] != 0 {
                at = index.after(at);
            }
            index.slots[at] = i as u32 + 1;
        }
        index
    }

    fn first(&self, name: &[u8]) -> usize {
        number(name) as usize % self.slots.len()
    }

    fn after(&self, at: usize) -> usize {
        (at + 1) % self.slots.len()
    }

    /// The ordinal of a name, or NONE, and how many slots are looked at: up to the one with the name or the first empty one.
    pub fn look(&self, name: &[u8]) -> (u32, u64) {
        let mut at = self.first(name);
        let mut looked = 1;
        while self.slots[at] != 0 {
            let ordinal = self.slots[at] - 1;
            if self.names[ordinal as usize] == name {
                return (ordinal, looked);
            }
            at = self.after(at);
            looked += 1;
        }
        (NONE, looked)
    }
}
