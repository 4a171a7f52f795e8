// The messages that reading, writing and editing are measured on.
use super::table::{Item, Row};

// A table, the row asked for and a message of it.
pub struct Workload {
    pub name: &'static str,
    pub rows: Vec<Row>,
    pub items: Vec<Item>,
    pub msg: Vec<u8>,
}

const BOOLEAN: Row = [1, 0, 0, 0, 0, 0];

// A SEQUENCE OF 400 SEQUENCEs of eight small components: 10 nodes each.
#[rustfmt::skip]
pub fn small() -> Workload {
    let rows = vec![
        BOOLEAN,
        [2, 3, 0, 255, 0, 0],                     // INTEGER (0..255): 1 octet
        [2, 3, -1000i64 as u64, 1000, 0, 0],      // INTEGER (-1000..1000): 2 octets
        [2, 1, 0, 0, 0, 0],                       // INTEGER (0..MAX): a determinant, here 1 or 2 octets
        [3, 0, 0, 0, 0, 5],                       // ENUMERATED {-1, 0, 1, 2, 200}
        [12, 0, 0, 0, 5, 4],                      // CHOICE of four
        [10, 0, 0, 0, 9, 8],                      // SEQUENCE of eight
        [11, 0, 0, 0, 17, 1],                     // SEQUENCE OF
    ];
    let items = vec![
        [u64::MAX, 0, 0], [0, 0, 0], [1, 0, 0], [2, 0, 0], [200, 0, 0],
        [2, 0, 0], [2, 1, 1], [2, 2, 2], [2, 100, 3],
        [0, 0, 0], [1, 0, 0], [2, 0, 0], [3, 0, 0], [0, 1, 0], [1, 2, 5], [4, 0, 0], [5, 0, 0],
        [6, 0, 0],
    ];
    let mut msg = vec![2, 1, 144]; // 400
    for i in 0..400u64 {
        let (option, default) = (i % 2 == 0, i % 3 == 0);
        msg.push(if option { 0x80 } else { 0 } + if default { 0 } else { 0x40 });
        msg.push(if i % 5 < 2 { 255 } else { 0 });
        msg.push((i * 7 % 256) as u8);
        msg.extend(((i * 37 % 2001) as i16 - 1000).to_be_bytes());
        match i * 97 % 700 {
            n @ 0..=255 => msg.extend([1, n as u8]),
            n => msg.extend([2, (n / 256) as u8, (n % 256) as u8]),
        }
        if option {
            msg.push(if i % 4 == 0 { 255 } else { 0 });
        }
        if !default {
            msg.push(6 + (i % 200) as u8);
        }
        msg.extend([&[0][..], &[1], &[2], &[0], &[0x81, 0xff], &[1], &[0x82, 0, 200]][i as usize % 7]);
        msg.extend([&[0x80, 255][..], &[0x81, 77], &[0x82, 255, 254], &[0xbf, 100, 1, 9]][i as usize / 2 % 4]);
    }
    Workload { name: "small", rows, items, msg }
}

// A SEQUENCE OF 11 SEQUENCEs of four strings, of 300 to 3,000 octets each.
#[rustfmt::skip]
pub fn strings() -> Workload {
    let rows = vec![
        [7, 0, 0, 0, 0, 0],                       // OCTET STRING
        [9, 2, 1, 4000, 0, 0],                    // VisibleString (SIZE (1..4000))
        [8, 0, 0, 0, 0, 0],                       // BIT STRING
        [7, 2, 512, 512, 0, 0],                   // OCTET STRING (SIZE (512))
        [10, 0, 0, 0, 0, 4],                      // SEQUENCE of four
        [11, 0, 0, 0, 4, 1],                      // SEQUENCE OF
    ];
    let items = vec![[0, 0, 0], [1, 0, 0], [2, 0, 0], [3, 0, 0], [4, 0, 0]];
    let mut msg = vec![1, 11];
    let octets = |n: usize, seed: usize| (0..n).map(move |i| ((i + seed) * 2654435761 >> 7) as u8);
    let size = |i: usize| 300 + i * 977 % 2701;
    let determinant = |n: usize| [0x82, (n / 256) as u8, (n % 256) as u8];
    for i in 0..11 {
        let (n, m, k) = (size(3 * i), size(3 * i + 1), size(3 * i + 2));
        msg.extend(determinant(n));
        msg.extend(octets(n, i));
        msg.extend(determinant(m));
        msg.extend(octets(m, i + 1).map(|o| 32 + o % 95));
        let unused = i % 8;
        msg.extend(determinant(k + 1));
        msg.push(unused as u8);
        msg.extend(octets(k, i + 2));
        *msg.last_mut().unwrap() &= 0xff << unused;
        msg.extend(octets(512, i + 3));
    }
    Workload { name: "strings", rows, items, msg }
}
