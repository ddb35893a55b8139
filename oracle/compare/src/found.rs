//! A record by its key, and the references in one table: what is due, worked out from the crate's tables and the text's own lines.

use oracle::{Header, inputs::Rng};

/// The keys of a kind, in the order of its records: SQ, RG and PG have them.
pub fn keys(header: &Header, kind: u8) -> Vec<&[u8]> {
    match kind {
        2 => header.reference_sequences().keys().map(|k| &k[..]).collect(),
        3 => header.read_groups().keys().map(|k| &k[..]).collect(),
        4 => header.programs().as_ref().keys().map(|k| &k[..]).collect(),
        _ => Vec::new(),
    }
}

/// What is nearly a key: the front of one, a byte more, a byte changed, another byte before it, no bytes.
pub fn nearly(key: &[u8], rng: &mut Rng) -> Vec<u8> {
    let mut key = key.to_vec();
    match rng.below(5) {
        0 => key.truncate(rng.below(key.len())),
        1 => key.push(*rng.of(b"\0\n\rx")),
        2 => {
            let at = if rng.one_in(2) { 0 } else { rng.below(key.len()) };
            key[at] ^= 1 << rng.below(8);
        }
        3 => key.insert(0, *rng.of(b"x\t:")),
        _ => key.clear(),
    }
    key
}

/// For each SQ the offset of its name, how long that is, and LN. The place is the line's own: behind its last `SN:`.
pub fn rows(text: &[u8], header: &Header) -> Vec<u32> {
    let lines = oracle::spans(text).filter(|&(a, b)| text[a..b].starts_with(b"@SQ"));
    let mut all = Vec::new();
    for ((a, b), (name, map)) in lines.zip(header.reference_sequences()) {
        let before = text[a..b].windows(4).rposition(|w| w == b"\tSN:").expect("an SQ has a name");
        all.extend([(a + before + 4) as u32, name.len() as u32, map.length().get() as u32]);
    }
    all
}
