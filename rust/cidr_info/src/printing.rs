// Written by scripts/plain out of crates/cidr_info/src/printing.rt

//! Prints networks.

use crate::field::{FIELDS, Field, Form, before_value, behind_value};
use crate::said::Said;
use crate::value::{count_of, value_of};
use fosibegan_core::ipnetwork::IpNetwork;
use cidr_programs::lines::fault::RunFault;
use cidr_programs::lines::output::Output;
use cidr_programs::program::putting::put_all;
use fosibegan_core::plain_std::io::Write;

/// Prints the networks that these texts name, in this form.
pub(crate) fn put_infos<W: Write>(
    form: Form,
    all: &[Said<'_>],
    output: &mut Output<'_, W>,
) -> Result<(), RunFault> {
    let mut is_first = true;
    for said in all {
        put_if_named(is_first, form, said.network(), output)?;
        is_first = stays_first(is_first, said.network());
    }
    Ok(())
}

// Whether the next network will be the first to be printed.
fn stays_first(is_first: bool, network: Option<IpNetwork>) -> bool {
    is_first && network.is_none()
}

// Prints a network, if there is one.
fn put_if_named<W: Write>(
    is_first: bool,
    form: Form,
    network: Option<IpNetwork>,
    output: &mut Output<'_, W>,
) -> Result<(), RunFault> {
    match network {
        Some(network) => put_info(separator(is_first, form), form, &network, output),
        None => Ok(()),
    }
}

// Returns what comes before a network: an empty line before the lines of each but the first.
fn separator(is_first: bool, form: Form) -> &'static str {
    match form {
        Form::Lines if !is_first => "\n",
        _ => "",
    }
}

// Prints `before`, and then a network.
fn put_info<W: Write>(
    before: &str,
    form: Form,
    network: &IpNetwork,
    output: &mut Output<'_, W>,
) -> Result<(), RunFault> {
    output.put(before.as_bytes())?;
    put_rows(form, network, output)
}

// Prints the fields of a network, as many values of each as are printed in this form.
fn put_rows<W: Write>(
    form: Form,
    network: &IpNetwork,
    output: &mut Output<'_, W>,
) -> Result<(), RunFault> {
    for field in &FIELDS {
        put_row(form, *field, network, output)?;
    }
    Ok(())
}

// Prints the values of a field.
fn put_row<W: Write>(
    form: Form,
    field: Field,
    network: &IpNetwork,
    output: &mut Output<'_, W>,
) -> Result<(), RunFault> {
    let count = count_of(form, field, network);
    for place in 0..count {
        put_value(form, field, network, place, place + 1 == count, output)?;
    }
    Ok(())
}

// Prints a value of a field, which may be the last one.
fn put_value<W: Write>(
    form: Form,
    field: Field,
    network: &IpNetwork,
    place: u8,
    is_last: bool,
    output: &mut Output<'_, W>,
) -> Result<(), RunFault> {
    let value = value_of(field, network, place);
    let (before, behind) = (
        before_value(form, field, place == 0),
        behind_value(form, field, is_last),
    );
    put_all(&[before, value.as_str(), behind], output)
}
