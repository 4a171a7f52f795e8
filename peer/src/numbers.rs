//! Whole numbers as octets: fewest octets, length determinants (8.6, 31.2), tags (8.7).

/// An unsigned number in fewest octets, at least one.
pub fn fewest_unsigned(number: u64) -> Vec<u8> {
    let octets = number.to_be_bytes();
    let skip = octets.iter().take(7).take_while(|&&o| o == 0).count();
    octets[skip..].to_vec()
}

/// A signed number in two's complement in fewest octets, at least one.
pub fn fewest_signed(number: i64) -> Vec<u8> {
    let mut octets = number.to_be_bytes().to_vec();
    while octets.len() > 1 && padded_signed(&octets) {
        octets.remove(0);
    }
    octets
}

/// Whether an unsigned number could do without its first octet.
pub fn padded_unsigned(octets: &[u8]) -> bool {
    octets.len() > 1 && octets[0] == 0
}

/// Whether a signed number could do without its first octet: the first nine bits are the same.
pub fn padded_signed(octets: &[u8]) -> bool {
    octets.len() > 1 && ((octets[0] == 0 && octets[1] < 128) || (octets[0] == 255 && octets[1] >= 128))
}

/// The number of at most eight octets.
pub fn unsigned(octets: &[u8]) -> u64 {
    octets.iter().fold(0, |number, &octet| number << 8 | octet as u64)
}

/// The number of one to eight octets in two's complement.
pub fn signed(octets: &[u8]) -> i64 {
    let unused = 64 - 8 * octets.len() as u32;
    ((unsigned(octets) << unused) as i64) >> unused
}

/// A length determinant (8.6.4, 8.6.5), the shortest (31.2).
pub fn determinant(length: usize) -> Vec<u8> {
    if length < 128 {
        return vec![length as u8];
    }
    let mut octets = fewest_unsigned(length as u64);
    octets.insert(0, 128 + octets.len() as u8);
    octets
}

/// A tag (8.7.2): class in the top two bits; a number from 63 on in groups of seven bits.
pub fn tag(class: u64, number: u64) -> Vec<u8> {
    let class = (class as u8) << 6;
    if number < 63 {
        return vec![class | number as u8];
    }
    let mut groups = vec![number as u8 & 127];
    let mut rest = number >> 7;
    while rest > 0 {
        groups.push(128 | (rest as u8 & 127));
        rest >>= 7;
    }
    groups.push(class | 63);
    groups.reverse();
    groups
}

/// How many octets hold so many bits.
pub fn octets_of_bits(bits: u64) -> u64 {
    bits.div_ceil(8)
}

/// The bits of a last octet that hold nothing, as a mask.
pub fn unused_mask(bits: u64) -> u8 {
    let unused = (8 - bits % 8) % 8;
    ((1u16 << unused) - 1) as u8
}

pub const SINGLE_NAN: u32 = 0x7FC0_0000;
pub const DOUBLE_NAN: u64 = 0x7FF8_0000_0000_0000;

/// House rule of document 01: there is one NaN.
pub fn single_allowed(bits: u32) -> bool {
    bits == SINGLE_NAN || !f32::from_bits(bits).is_nan()
}

pub fn double_allowed(bits: u64) -> bool {
    bits == DOUBLE_NAN || !f64::from_bits(bits).is_nan()
}
