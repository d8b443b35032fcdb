//! The tag that every workload begins with: locked counter segments, then segments of the default model, then public
//! ones.

/// How many segments of each sort it has.
pub const COUNTERS: usize = 8;
pub const PLAINS: usize = 4;
pub const PUBLICS: usize = 2;

/// Addresses, and the bytes of a unit and of a segment.
pub const COUNTER: usize = 4;
pub const READ: usize = 3984;
pub const PA: usize = 4080;
pub const PINS: usize = 4096;
pub const READERS: usize = 8192;
pub const UNITS: usize = 12288;
pub const UNIT: usize = 32;
pub const SEGMENTS: usize = 16384;
pub const SEGMENT: usize = 4096;

/// The first two bytes of a unit: RD, WR, nE and M, and model 2.
const LOCKED_COUNTER: [u8; 2] = [0xA5, 0x02];
/// RD and WR.
const PLAIN: [u8; 2] = [0xA0, 0x00];
/// RD, RDPIN, WR, WRPIN and PN: it asks for index 0 and a name of zeros, which a session has after power-up.
const ASKING: [u8; 2] = [0xF8, 0x00];

/// The PIN of an index; that of index 0 is zeros, as on every sound tag.
pub fn pin(index: usize) -> [u8; 16] {
    std::array::from_fn(|i| (index * (31 + 2 * i)) as u8)
}

fn unit(segment: usize) -> [u8; 2] {
    match segment {
        ..COUNTERS => LOCKED_COUNTER,
        _ if segment == COUNTERS + PLAINS - 1 => ASKING,
        _ => PLAIN,
    }
}

pub fn image() -> Vec<u8> {
    let mut tag = vec![0; SEGMENTS + SEGMENT * (COUNTERS + PLAINS + PUBLICS)];
    tag[1] = (COUNTERS + PLAINS) as u8; // A, the number of access-controlled segments
    tag[3] = PUBLICS as u8; // P, the number of public ones
    for index in 0..256 {
        tag[PINS + 16 * index..][..16].copy_from_slice(&pin(index));
    }
    for segment in 0..COUNTERS + PLAINS {
        tag[UNITS + UNIT * segment..][..2].copy_from_slice(&unit(segment));
    }
    tag
}
