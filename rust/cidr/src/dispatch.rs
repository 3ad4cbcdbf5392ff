// Written by scripts/plain out of crates/cidr/src/dispatch.rt

//! Finds the command of a line, by its name and the number of its words.

use crate::commands::ends::ends;
use crate::commands::has::{has, has4};
use crate::commands::read::{read, read4, read6};
use crate::commands::rel::rel;
use crate::commands::routing::{add, drop, find};
use crate::cutting::cut_word;
use crate::names;
use crate::replies::reply;
use crate::route_tables::RouteTables;
use cidr_programs::lines::buffer::Buffer;

/// The answer to a line that is not a command.
const UNKNOWN: &str = "unknown command";

/// Adds the answer to a line of any length. Its words are split at each blank; the first names the
/// command, and the others are its arguments.
pub(crate) fn answer(line: &[u8], routes: &mut RouteTables, replies: &mut Buffer<'_>) {
    let Some((command, first_at)) = cut_word(line, 0) else {
        reply(replies, UNKNOWN);
        return;
    };
    let Some((first, second_at)) = cut_word(line, first_at) else {
        answer_one(command, &line[first_at..], routes, replies);
        return;
    };
    match cut_word(line, second_at) {
        None => answer_two(command, first, &line[second_at..], routes, replies),
        Some(_) => reply(replies, UNKNOWN),
    }
}

/// Adds the answer of a command with one argument.
fn answer_one(command: &[u8], word: &[u8], routes: &mut RouteTables, replies: &mut Buffer<'_>) {
    if names::is_read(command) {
        read(word, replies);
    } else if names::is_ends(command) {
        ends(word, replies);
    } else if names::is_read4(command) {
        read4(word, replies);
    } else if names::is_read6(command) {
        read6(word, replies);
    } else if names::is_drop(command) {
        drop(word, routes, replies);
    } else if names::is_find(command) {
        find(word, routes, replies);
    } else {
        reply(replies, UNKNOWN);
    }
}

/// Adds the answer of a command with two arguments.
fn answer_two(
    command: &[u8],
    first: &[u8],
    second: &[u8],
    routes: &mut RouteTables,
    replies: &mut Buffer<'_>,
) {
    if names::is_has(command) {
        has(first, second, replies);
    } else if names::is_rel(command) {
        rel(first, second, replies);
    } else if names::is_has4(command) {
        has4(first, second, replies);
    } else if names::is_add(command) {
        add(first, second, routes, replies);
    } else {
        reply(replies, UNKNOWN);
    }
}
