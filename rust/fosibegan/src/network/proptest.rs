//! With the feature `proptest`: networks for property tests.

use crate::{IpNetwork, Ipv4Network, Ipv6Network};
use core::net::{Ipv4Addr, Ipv6Addr};
use proptest::arbitrary::{Arbitrary, any};
use proptest::prop_oneof;
use proptest::strategy::{BoxedStrategy, Just, Strategy};

/// What becomes of the bits of an address that is made at random.
#[derive(Clone, Copy, Debug)]
enum Bits {
    Kept,
    /// Host bits that are zeros.
    First,
    /// Host bits that are ones.
    Last,
    Zeros,
    Ones,
}

/// Half of the addresses keep their bits. The others are ends of their networks, and some of these
/// are ends of the address space.
fn bits() -> impl Strategy<Value = Bits> {
    prop_oneof![
        4 => Just(Bits::Kept),
        1 => Just(Bits::First),
        1 => Just(Bits::Last),
        1 => Just(Bits::Zeros),
        1 => Just(Bits::Ones),
    ]
}

macro_rules! arbitrary {
    ($name:ident, $address:ident, $number:ident, $doc:literal) => {
        impl Arbitrary for $name {
            type Parameters = ();
            type Strategy = BoxedStrategy<Self>;

            #[doc = $doc]
            fn arbitrary_with((): ()) -> BoxedStrategy<Self> {
                (any::<$number>(), 0..=Self::WIDTH, bits())
                    .prop_filter_map(
                        "no prefix length of the family",
                        |(number, prefix, bits)| {
                            let network = Self::new_checked($address::from_bits(number), prefix)?;
                            Some(network.with_ip(match bits {
                                Bits::Kept => number,
                                Bits::First => network.first(),
                                Bits::Last => network.last(),
                                Bits::Zeros => $number::MIN,
                                Bits::Ones => $number::MAX,
                            }))
                        },
                    )
                    .boxed()
            }
        }
    };
}

arbitrary!(
    Ipv4Network,
    Ipv4Addr,
    u32,
    "Networks of each prefix length alike, often at an end of the address space."
);
arbitrary!(
    Ipv6Network,
    Ipv6Addr,
    u128,
    "Networks of each prefix length alike, often at an end of the address space."
);

impl Arbitrary for IpNetwork {
    type Parameters = ();
    type Strategy = BoxedStrategy<Self>;

    /// IPv4 and IPv6 networks alike.
    fn arbitrary_with((): ()) -> BoxedStrategy<Self> {
        let v4 = any::<Ipv4Network>().prop_map(Self::V4);
        let v6 = any::<Ipv6Network>().prop_map(Self::V6);
        prop_oneof![v4, v6].boxed()
    }
}
