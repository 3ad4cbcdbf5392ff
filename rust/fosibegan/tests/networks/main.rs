//! Networks: their texts, what they are as values, and their iterators.

mod blocks;
mod common;
mod generic;
mod members;
mod texts;
mod values;
