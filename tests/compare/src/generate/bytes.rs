//! Bytes of every sort, where a type is wanted, behind one, in a name and in a zone.

use super::{Random, Visit};

const AROUND: [(&[u8], &[u8]); 6] = [
    (b"", b""),
    (b"Int8 ", b""),
    (b"Int8", b""),
    (b"Struct(\"", b"\": Int8)"),
    (b"List(Int8, field: '", b"')"),
    (b"Timestamp(s, \"", b"\")"),
];

/// Every two bytes in every place, then sequences at the edges of UTF-8.
pub fn all(visit: Visit) {
    for (before, behind) in AROUND {
        for first in 0..=255u8 {
            visit(&[before, &[first], behind].concat());
            for second in 0..=255u8 {
                visit(&[before, &[first, second], behind].concat());
            }
        }
    }
    let edges: [u8; 24] = [
        0x00, 0x20, 0x22, 0x5c, 0x7f, 0x80, 0x8f, 0x90, 0x9f, 0xa0, 0xbf, 0xc0, 0xc1, 0xc2, 0xdf,
        0xe0, 0xe1, 0xed, 0xef, 0xf0, 0xf3, 0xf4, 0xf5, 0xff,
    ];
    for first in edges {
        for second in edges {
            for third in edges {
                let (before, behind) = AROUND[3];
                visit(&[before, &[first, second, third], behind].concat());
                for fourth in [0x22, 0x7f, 0x80, 0xbf, 0xc0] {
                    visit(&[before, &[first, second, third, fourth], behind].concat());
                }
            }
        }
    }
}

pub fn random(random: &mut Random) -> Vec<u8> {
    let length = random.below(40);
    match random.below(3) {
        0 => (0..length).map(|_| random.below(256) as u8).collect(),
        1 => (0..length).map(|_| random.between(32, 126) as u8).collect(),
        _ => {
            let (before, behind) = AROUND[random.below(AROUND.len())];
            let inside: String = (0..length).map(|_| random.character()).collect();
            let mut text = [before, inside.as_bytes(), behind].concat();
            if random.one_in(4) {
                let at = random.below(text.len() + 1);
                text.truncate(at);
            }
            text
        }
    }
}
