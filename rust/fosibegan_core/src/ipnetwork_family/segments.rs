// Written by scripts/plain out of crates/ipnetwork_family/src/segments.rt

//! Operations on the eight segments of an IPv6 address and a mask, one segment at a time and
//! without branches.

/// The address with the bits outside the mask cleared.
pub(crate) fn kept(segments: &[u16; 8], mask: &[u16; 8]) -> [u16; 8] {
    let mut kept = [0; 8];
    for i in 0..8 {
        kept[i] = segments[i] & mask[i];
    }
    kept
}

/// The address with the bits outside the mask set.
pub(crate) fn filled(segments: &[u16; 8], mask: &[u16; 8]) -> [u16; 8] {
    let mut filled = [0; 8];
    for i in 0..8 {
        filled[i] = segments[i] | !mask[i];
    }
    filled
}

/// Whether two addresses agree in the bits of the mask.
pub(crate) fn agree(a: &[u16; 8], b: &[u16; 8], mask: &[u16; 8]) -> bool {
    let mut differ = 0;
    for i in 0..8 {
        differ |= (a[i] ^ b[i]) & mask[i];
    }
    differ == 0
}

/// The sum of the numbers of leading ones of the segments; for a mask, its prefix length.
pub(crate) fn leading_ones(segments: &[u16; 8]) -> u8 {
    let mut ones = 0;
    for i in 0..8 {
        ones += segments[i].leading_ones() as u8;
    }
    ones
}
