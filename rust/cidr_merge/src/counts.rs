// Written by scripts/plain out of crates/cidr_merge/src/counts.rt

//! The numbers of blocks and of addresses.

use crate::sweep::Sweep;
use fosibegan_core::plain_std::arrayvec::ArrayString;
use fosibegan_core::ipnetwork::CidrNetwork;
use fosibegan_core::ipnetwork_addr::decimal::push_number;
use fosibegan_core::ipnetwork_blocks::AddressSpace;
use fosibegan_core::ipnetwork_sets::{AddressCount, SetBlocks};
use cidr_programs::lines::output::Output;
use cidr_programs::program::messages::tell;
use fosibegan_core::plain_std::io::Write;

/// The number of blocks, and of the addresses in them.
#[derive(Clone, Copy, Debug)]
pub(crate) struct Counts {
    blocks: u128,
    pub(crate) addresses: AddressCount,
}

/// One of the numbers or both as a text.
pub(crate) type CountText = ArrayString<80>;

impl Counts {
    /// Counts these blocks and their addresses.
    pub(crate) fn of<N: AddressSpace>(mut blocks: Sweep<'_, N>) -> Counts {
        let mut count = 0u128;
        let mut addresses = AddressCount::ZERO;
        while let Some(block) = blocks.next_block() {
            count = count.saturating_add(1);
            addresses = addresses.add_block(block);
        }
        Counts {
            blocks: count,
            addresses,
        }
    }

    /// Returns both numbers, with a space between them.
    pub(crate) fn text(self) -> CountText {
        let mut text = ArrayString::new();
        push_number(&mut text, self.blocks);
        text.push(' ');
        push_count(&mut text, self.addresses);
        text
    }
}

/// Returns a count of addresses as a text.
pub(crate) fn count_text(count: AddressCount) -> CountText {
    let mut text = ArrayString::new();
    push_count(&mut text, count);
    text
}

// Appends a count of addresses to a text.
fn push_count(text: &mut CountText, count: AddressCount) {
    match count {
        AddressCount::Number(number) => push_number(text, number),
        AddressCount::AllOfIpv6 => text.push_str("340282366920938463463374607431768211456"),
    }
}

/// Reports a count of addresses, as `tell_count` does a number.
pub(crate) fn tell_addresses<E: Write>(count: AddressCount, errors: &mut Output<'_, E>) {
    match count {
        AddressCount::Number(number) => tell_count(number, errors),
        AddressCount::AllOfIpv6 => {
            tell(
                "340,282,366,920,938,463,463,374,607,431,768,211,456",
                errors,
            );
        }
    }
}

/// Reports a number, with a comma before each three digits that others precede.
pub(crate) fn tell_count<E: Write>(count: u128, errors: &mut Output<'_, E>) {
    if count < 1000 {
        return tell_number(count, errors);
    }
    tell_count(count / 1000, errors);
    let three = count % 1000;
    let zeros = if three < 10 {
        ",00"
    } else if three < 100 {
        ",0"
    } else {
        ","
    };
    tell(zeros, errors);
    tell_number(three, errors);
}

// Reports a number.
fn tell_number<E: Write>(number: u128, errors: &mut Output<'_, E>) {
    let mut text = ArrayString::<40>::new();
    push_number(&mut text, number);
    tell(text.as_str(), errors);
}
