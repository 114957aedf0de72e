//! SHA-256 (FIPS 180-4), which shows that a compiled map is that of a text. (std has none, nor has the library for C.)

const FIRST: [u32; 8] =
    [0x6a09e667, 0xbb67ae85, 0x3c6ef372, 0xa54ff53a, 0x510e527f, 0x9b05688c, 0x1f83d9ab, 0x5be0cd19];

/// The first 32 bits behind the point of the cube root of a number.
const fn root_bits(number: u128) -> u32 {
    let (mut low, mut high) = (0u128, 1 << 36);
    while high - low > 1 {
        let middle = (low + high) / 2;
        if middle * middle * middle <= number << 96 { low = middle } else { high = middle }
    }
    low as u32
}

const fn is_prime(number: u128) -> bool {
    let mut by = 2;
    while by * by <= number {
        if number % by == 0 {
            return false;
        }
        by += 1;
    }
    true
}

/// Those of the first 64 primes.
const ROUNDS: [u32; 64] = {
    let (mut rounds, mut count, mut number) = ([0; 64], 0, 2);
    while count < 64 {
        if is_prime(number) {
            rounds[count] = root_bits(number);
            count += 1;
        }
        number += 1;
    }
    rounds
};

fn mix(state: &mut [u32; 8], block: &[u8]) {
    let mut words = [0u32; 64];
    for (word, bytes) in words.iter_mut().zip(block.chunks_exact(4)) {
        *word = u32::from_be_bytes([bytes[0], bytes[1], bytes[2], bytes[3]]);
    }
    for at in 16..64 {
        let (early, late) = (words[at - 15], words[at - 2]);
        let low = early.rotate_right(7) ^ early.rotate_right(18) ^ (early >> 3);
        let high = late.rotate_right(17) ^ late.rotate_right(19) ^ (late >> 10);
        words[at] = words[at - 16].wrapping_add(low).wrapping_add(words[at - 7]).wrapping_add(high);
    }
    let [mut a, mut b, mut c, mut d, mut e, mut f, mut g, mut h] = *state;
    for (word, round) in words.iter().zip(ROUNDS) {
        let high = e.rotate_right(6) ^ e.rotate_right(11) ^ e.rotate_right(25);
        let chosen = (e & f) ^ (!e & g);
        let one = h.wrapping_add(high).wrapping_add(chosen).wrapping_add(round).wrapping_add(*word);
        let low = a.rotate_right(2) ^ a.rotate_right(13) ^ a.rotate_right(22);
        let two = low.wrapping_add((a & b) ^ (a & c) ^ (b & c));
        (h, g, f, e, d, c, b, a) = (g, f, e, d.wrapping_add(one), c, b, a, one.wrapping_add(two));
    }
    for (sum, it) in state.iter_mut().zip([a, b, c, d, e, f, g, h]) {
        *sum = sum.wrapping_add(it);
    }
}

pub(super) fn sha256(data: &[u8]) -> [u8; 32] {
    let mut state = FIRST;
    let blocks = data.chunks_exact(64);
    let mut last = blocks.remainder().to_vec();
    blocks.for_each(|block| mix(&mut state, block));
    last.push(0x80);
    while last.len() % 64 != 56 {
        last.push(0);
    }
    last.extend((data.len() as u64 * 8).to_be_bytes());
    last.chunks_exact(64).for_each(|block| mix(&mut state, block));
    let mut out = [0; 32];
    out.chunks_exact_mut(4).zip(state).for_each(|(bytes, word)| bytes.copy_from_slice(&word.to_be_bytes()));
    out
}

/// The same as a text of hexadecimal digits.
pub(super) fn sha256_hex(data: &[u8]) -> String {
    sha256(data).iter().map(|it| format!("{it:02x}")).collect()
}

#[cfg(test)]
mod tests {
    use super::*;

    // Those of the examples that NIST publishes, and of lengths around that of a block, by `sha256sum`.
    #[test]
    fn published_digests() {
        let rows = [
            ("", "e3b0c44298fc1c149afbf4c8996fb92427ae41e4649b934ca495991b7852b855"),
            ("abc", "ba7816bf8f01cfea414140de5dae2223b00361a396177a9cb410ff61f20015ad"),
            (
                "abcdbcdecdefdefgefghfghighijhijkijkljklmklmnlmnomnopnopq",
                "248d6a61d20638b8e5c026930c3e6039a33ce45964ff2167f6ecedd419db06c1",
            ),
        ];
        for (text, wanted) in rows {
            assert_eq!(sha256_hex(text.as_bytes()), wanted);
        }
        let million = "a".repeat(1_000_000);
        assert_eq!(sha256_hex(million.as_bytes()), "cdc76e5c9914fb9281a1c7e284d73e67f1809a48a497200e046d39ccc7112cd0");
    }

    #[test]
    fn digests_of_each_length_around_a_block() {
        // (the digest of the digests, one after the other, of `a` 0 to 130 times)
        let all: String = (0..=130).map(|it| sha256_hex("a".repeat(it).as_bytes())).collect();
        assert_eq!(sha256_hex(all.as_bytes()), "5eee4c50e1b5ec4f1a47f34c25ca988850b49da7904f5ab1b3abc5cc0ae66ef9");
    }
}
