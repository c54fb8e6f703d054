//! What both sides are timed on: a catalogue, and layouts of one record in a block, whose numbers are those of judge/src/v4/fields.rs.

/// Type ids with their classes and widths: unsigned, signed, decimal, string, struct, padding.
const KINDS: [(usize, u8); 13] = [
    (1, 0x11),
    (2, 0x12),
    (3, 0x14),
    (4, 0x18),
    (17, 0x21),
    (18, 0x22),
    (19, 0x24),
    (20, 0x28),
    (33, 0x38),
    (49, 0x40),
    (50, 0x40),
    (65, 0x50),
    (80, 0x60),
];

pub fn catalogue() -> Vec<u8> {
    let mut bytes = vec![0; 256];
    for (id, kind) in KINDS {
        bytes[id] = kind;
    }
    bytes.extend([128, 64, 1, 0, 0, 0]);
    bytes
}

/// Type ids of integers and their widths: all widths and both signs.
pub const INTEGERS: [(u8, u8); 8] = [
    (4, 8),
    (3, 4),
    (20, 8),
    (2, 2),
    (1, 1),
    (19, 4),
    (18, 2),
    (17, 1),
];

/// Integers, each of eight bytes' room.
fn field(i: u16) -> [u8; 16] {
    row(i, INTEGERS[usize::from(i) % INTEGERS.len()])
}

fn row(i: u16, (type_id, size): (u8, u8)) -> [u8; 16] {
    let mut row = [0; 16];
    row[..2].copy_from_slice(&(2 + i).to_le_bytes());
    row[2..4].copy_from_slice(&(24 + 8 * i).to_le_bytes());
    row[4] = size;
    row[6] = type_id;
    row
}

/// The places 0 to n - 1, always in the same disorder.
fn disorder(n: u16) -> Vec<u16> {
    let mut places: Vec<u16> = (0..n).collect();
    let mut state = 1u64;
    for i in (1..places.len()).rev() {
        state = state
            .wrapping_mul(6364136223846793005)
            .wrapping_add(1442695040888963407);
        places.swap(i, (state >> 33) as usize % (i + 1));
    }
    places
}

fn name(text: &str) -> [u8; 33] {
    let mut slot = [0; 33];
    slot[0] = text.len() as u8;
    slot[1..1 + text.len()].copy_from_slice(text.as_bytes());
    slot
}

fn block(places: &[u16]) -> Vec<u8> {
    block_of(places, field)
}

fn block_of(places: &[u16], field: fn(u16) -> [u8; 16]) -> Vec<u8> {
    let n = places.len() as u32;
    let mut b = vec![1, 0, 0, 0, 0, 0, 0, 0, 1, 0, 1, 0];
    for number in [24 + 8 * n, 0, 0, 80, 16 * n, 80 + 16 * n, 33 * n] {
        b.extend(number.to_le_bytes());
    }
    b.extend(name("record"));
    b.extend([0; 7]);
    b.extend(places.iter().flat_map(|&i| field(i)));
    b.extend(places.iter().flat_map(|&i| name(&format!("field_{i}"))));
    b
}

pub fn in_order(n: u16) -> Vec<u8> {
    block(&(0..n).collect::<Vec<_>>())
}

/// Every third field as wide as its sign allows.
fn wider(i: u16) -> [u8; 16] {
    match INTEGERS[usize::from(i) % INTEGERS.len()] {
        (unsigned, _) if i % 3 == 0 && unsigned < 16 => row(i, (4, 8)),
        _ if i % 3 == 0 => row(i, (20, 8)),
        same => row(i, same),
    }
}

pub fn widened(n: u16) -> Vec<u8> {
    block_of(&(0..n).collect::<Vec<_>>(), wider)
}

/// From the last to the first: the worst order for an insertion.
pub fn reversed(n: u16) -> Vec<u8> {
    block(&(0..n).rev().collect::<Vec<_>>())
}

pub fn shuffled(n: u16) -> Vec<u8> {
    block(&disorder(n))
}

/// The same layout with another stored hash.
pub fn other_hash(layout: &[u8]) -> Vec<u8> {
    let mut other = layout.to_vec();
    other[16] ^= 1;
    other
}
