// Written by scripts/plain out of crates/line_addresses/src/port.rt

//! The port number after an address.

/// Returns how many digits end a text.
pub(crate) fn digits_at_end(text: &[u8]) -> usize {
    let mut at = text.len();
    'digits: while at > 0 {
        if !text[at - 1].is_ascii_digit() {
            return text.len() - at;
        }
        at -= 1;
    }
    text.len()
}

/// Returns whether this many bytes at the end of a text are as many as the digits of a port, and a
/// `:` is before them.
pub(crate) fn is_port(size: usize, text: &[u8]) -> bool {
    if size == 0 || size > 5 {
        return false;
    }
    if size >= text.len() {
        return false;
    }
    text[text.len() - 1 - size] == b':'
}

/// Returns whether a text has a `.`.
pub(crate) fn has_dot(text: &[u8]) -> bool {
    text.iter().any(|byte| *byte == b'.')
}
