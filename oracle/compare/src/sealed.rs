//! A second writing of SHA-256, from FIPS 180-4, to hold seals to. The constants are worked out from the primes, as the standard says what they are, and the
//! standard's examples are asked before anything else is.

/// The constants of the rounds and the initial hash value.
pub struct Sha256 {
    k: Vec<u32>,
    initial: Vec<u32>,
}

/// The first 32 bits of the fractional part of a prime's root.
fn fraction(prime: u128, power: u32) -> u32 {
    let bound = prime << (32 * power);
    let (mut low, mut high) = (0, 1u128 << 37);
    while high - low > 1 {
        let middle = (low + high) / 2;
        if middle.pow(power) <= bound { low = middle } else { high = middle }
    }
    low as u32
}

impl Default for Sha256 {
    fn default() -> Self {
        let primes = (2u128..).filter(|n| (2..*n).all(|d| n % d != 0));
        let k = primes.clone().take(64).map(|p| fraction(p, 3)).collect();
        let sha256 = Self { k, initial: primes.take(8).map(|p| fraction(p, 2)).collect() };
        for (message, digest) in [
            (&b""[..], "e3b0c44298fc1c149afbf4c8996fb92427ae41e4649b934ca495991b7852b855"),
            (b"abc", "ba7816bf8f01cfea414140de5dae2223b00361a396177a9cb410ff61f20015ad"),
            (
                b"abcdbcdecdefdefgefghfghighijhijkijkljklmklmnlmnomnopnopq",
                "248d6a61d20638b8e5c026930c3e6039a33ce45964ff2167f6ecedd419db06c1",
            ),
            (&[b'a'; 1_000_000], "cdc76e5c9914fb9281a1c7e284d73e67f1809a48a497200e046d39ccc7112cd0"),
        ] {
            assert_eq!(oracle::inputs::hex(&sha256.digest(message)), digest, "an example of the standard");
        }
        sha256
    }
}

impl Sha256 {
    fn block(&self, hash: &mut [u32], block: &[u8]) {
        let mut w: Vec<u32> = block.chunks(4).map(|b| u32::from_be_bytes(b.try_into().expect("four bytes"))).collect();
        for t in 16..64 {
            let (x, y) = (w[t - 15], w[t - 2]);
            let s0 = x.rotate_right(7) ^ x.rotate_right(18) ^ x >> 3;
            let s1 = y.rotate_right(17) ^ y.rotate_right(19) ^ y >> 10;
            w.push(s1.wrapping_add(w[t - 7]).wrapping_add(s0).wrapping_add(w[t - 16]));
        }
        let mut v = hash.to_vec();
        for (k, w) in self.k.iter().zip(w) {
            let s1 = v[4].rotate_right(6) ^ v[4].rotate_right(11) ^ v[4].rotate_right(25);
            let choice = (v[4] & v[5]) ^ (!v[4] & v[6]);
            let t1 = v[7].wrapping_add(s1).wrapping_add(choice).wrapping_add(*k).wrapping_add(w);
            let s0 = v[0].rotate_right(2) ^ v[0].rotate_right(13) ^ v[0].rotate_right(22);
            let majority = (v[0] & v[1]) ^ (v[0] & v[2]) ^ (v[1] & v[2]);
            v.rotate_right(1);
            v[4] = v[4].wrapping_add(t1);
            v[0] = t1.wrapping_add(s0).wrapping_add(majority);
        }
        for (h, v) in hash.iter_mut().zip(v) {
            *h = h.wrapping_add(v);
        }
    }

    pub fn digest(&self, message: &[u8]) -> [u8; 32] {
        let mut hash = self.initial.clone();
        let (whole, rest) = message.split_at(message.len() / 64 * 64);
        let mut last = [rest, &[0x80]].concat();
        while last.len() % 64 != 56 {
            last.push(0);
        }
        last.extend((8 * message.len() as u64).to_be_bytes());
        for block in whole.chunks(64).chain(last.chunks(64)) {
            self.block(&mut hash, block);
        }
        let bytes: Vec<u8> = hash.iter().flat_map(|h| h.to_be_bytes()).collect();
        bytes.try_into().expect("eight words")
    }
}
