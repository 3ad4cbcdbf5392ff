//! How many blocks there are of each prefix length.

/// How many blocks of one family there are of each prefix length.
#[derive(Clone, Copy, Debug)]
pub(super) struct Lengths {
    /// There are 2^32 IPv4 addresses, one more than 32 bits count to.
    counts: [u64; 129],
}

impl Lengths {
    pub(super) const fn none() -> Self {
        Lengths { counts: [0; 129] }
    }

    pub(super) fn has(&self, prefix: u8) -> bool {
        self.counts[usize::from(prefix)] > 0
    }

    pub(super) fn add(&mut self, prefix: u8) {
        self.counts[usize::from(prefix)] += 1;
    }

    pub(super) fn remove(&mut self, prefix: u8) {
        self.counts[usize::from(prefix)] -= 1;
    }
}

#[cfg(test)]
mod tests {
    use super::Lengths;

    #[test]
    fn a_length_has_as_many_blocks_as_ipv4_has_addresses() {
        let mut lengths = Lengths {
            counts: [u32::MAX.into(); 129],
        };
        for prefix in [0, 32, 128] {
            lengths.add(prefix);
            assert!(lengths.has(prefix));
            lengths.remove(prefix);
            assert!(lengths.has(prefix));
        }
    }
}
