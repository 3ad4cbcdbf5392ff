// Written by scripts/plain out of crates/cidr_info/src/field.rt

//! The fields that are printed about a network, and their names.

/// A field of what is printed about a network.
#[derive(Clone, Copy, Debug, PartialEq, Eq)]
pub enum Field {
    /// The address, with the host bits that were given.
    Address,
    /// The network, with its host bits set to zero.
    Network,
    /// The mask of the network.
    Mask,
    /// The complement of the mask.
    Wildcard,
    /// The lowest address of the network.
    First,
    /// The highest address of the network.
    Last,
    /// The first and the last address that a host may have.
    Hosts,
    /// The number of addresses in the network.
    Addresses,
    /// The reverse zone of the octets that the prefix length covers in full, or of the nibbles.
    Reverse,
    /// The reverse zones of the network.
    Zones,
    /// The address as a decimal number.
    Integer,
    /// The address as a hexadecimal number.
    Hexadecimal,
}

/// How networks are printed.
#[derive(Clone, Copy, Debug, PartialEq, Eq)]
pub enum Form {
    /// Each value of a field on a line of its own.
    Lines,
    /// A JSON object on a line for each network.
    Json,
    /// The reverse zones alone, each on a line of its own.
    Zones,
}

/// All fields, in the order in which they are printed.
pub(crate) const FIELDS: [Field; 12] = [
    Field::Address,
    Field::Network,
    Field::Mask,
    Field::Wildcard,
    Field::First,
    Field::Last,
    Field::Hosts,
    Field::Addresses,
    Field::Reverse,
    Field::Zones,
    Field::Integer,
    Field::Hexadecimal,
];

/// Returns what comes before a value of a field, which may be the first one: on lines the name of
/// the field, padded with spaces to the column of the values; in JSON what opens its string.
pub(crate) fn before_value(form: Form, field: Field, is_first: bool) -> &'static str {
    match form {
        Form::Lines => padded_name(field),
        Form::Json => before_string(field, is_first),
        Form::Zones => "",
    }
}

// Returns the name of a field, padded with spaces to the column of the values.
fn padded_name(field: Field) -> &'static str {
    match field {
        Field::Address => "address      ",
        Field::Network => "network      ",
        Field::Mask => "mask         ",
        Field::Wildcard => "wildcard     ",
        Field::First => "first        ",
        Field::Last => "last         ",
        Field::Hosts => "hosts        ",
        Field::Addresses => "addresses    ",
        Field::Reverse => "reverse      ",
        Field::Zones => "reverse      ",
        Field::Integer => "integer      ",
        Field::Hexadecimal => "hexadecimal  ",
    }
}

// Returns what comes before a value of a field in a JSON object, up to the quote that opens its
// string.
fn before_string(field: Field, is_first: bool) -> &'static str {
    if is_first {
        before_first_string(field)
    } else {
        ",\""
    }
}

// Returns what comes before the first value of a field in a JSON object.
fn before_first_string(field: Field) -> &'static str {
    match field {
        Field::Address => "{\"address\":\"",
        Field::Network => ",\"network\":\"",
        Field::Mask => ",\"mask\":\"",
        Field::Wildcard => ",\"wildcard\":\"",
        Field::First => ",\"first\":\"",
        Field::Last => ",\"last\":\"",
        Field::Hosts => ",\"hosts\":\"",
        Field::Addresses => ",\"addresses\":\"",
        Field::Reverse => ",\"reverse\":\"",
        Field::Zones => ",\"zones\":[\"",
        Field::Integer => ",\"integer\":\"",
        Field::Hexadecimal => ",\"hexadecimal\":\"",
    }
}

/// Returns what follows a value of a field, which may be the last one.
pub(crate) fn behind_value(form: Form, field: Field, is_last: bool) -> &'static str {
    match (form, field, is_last) {
        (Form::Json, Field::Zones, true) => "\"]",
        (Form::Json, Field::Hexadecimal, _) => "\"}\n",
        (Form::Json, _, _) => "\"",
        (_, _, _) => "\n",
    }
}
