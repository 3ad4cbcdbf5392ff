#![doc = include_str!("../../../ipnetwork/README.md")]
