//! Reads documents by `fosibegan_core::plain_std::json` and by the crate `serde_json`, and compares what is refused, at which
//! line, and the strings of what is not; then counts the memory that long documents take.
//!
//!     beside_serde_json [MUTATIONS]
//!
//! MUTATIONS is how many documents are made by random changes, 300,000 where it is not given.

mod memory;
#[path = "../../../fosibegan_core/src/plain_std/json/tests/rows.rs"]
mod rows;
mod shapes;

use fosibegan_core::plain_std::alloc::Global;
use fosibegan_core::plain_std::json;
use serde_json::Value;

/// What is put into documents.
const PIECES: [&[u8]; 48] = [
    b"[", b"]", b"{", b"}", b",", b":", b"\"", b"\\", b"\n", b" ", b"\t", b"\r", b"\0", b"\x1f", b"\x7f", b"\xff", b"\xc3",
    b"\xa9", b"\xed\xa0\x80", b"\xef\xbb\xbf", b"\xc3\xa9", b"\xf0\x9f\x98\x80", b"0", b"1", b"9", b"-", b"+", b".", b"e",
    b"E", b"e9", b"1e400", b"null", b"true", b"fals", b"NaN", b"\\u", b"\\ud83d", b"\\ude00", b"\\u0000", b"\\n", b"\\/",
    b"\"a\"", b"\"a\":", b"\"b\":\"c\"", b",,", b"//", b"[[[[",
];

/// Numbers by xorshift.
struct Random(u64);

impl Random {
    fn below(&mut self, bound: usize) -> usize {
        self.0 ^= self.0 << 13;
        self.0 ^= self.0 >> 7;
        self.0 ^= self.0 << 17;
        (self.0 >> 16) as usize % bound
    }
}

/// The strings of a document in their order, or the line that is wrong.
type Outcome = Result<Vec<String>, usize>;

fn of_stand_in(document: &[u8]) -> Outcome {
    fn strings(value: &json::Value, found: &mut Vec<String>) {
        match value {
            json::Value::String(text) => found.push(text.as_str().into()),
            json::Value::Array(items) => items.iter().for_each(|item| strings(item, found)),
            json::Value::Object(members) => members.iter().for_each(|(_, member)| strings(member, found)),
            json::Value::Null | json::Value::Bool(_) | json::Value::Number(_) => {}
        }
    }
    let value = json::Value::from_slice(Global, document).map_err(|error| error.line())?;
    let mut found = Vec::new();
    strings(&value, &mut found);
    Ok(found)
}

fn of_crate(document: &[u8]) -> Outcome {
    fn strings(value: &Value, found: &mut Vec<String>) {
        match value {
            Value::String(text) => found.push(text.clone()),
            Value::Array(items) => items.iter().for_each(|item| strings(item, found)),
            Value::Object(members) => members.iter().for_each(|(_, member)| strings(member, found)),
            Value::Null | Value::Bool(_) | Value::Number(_) => {}
        }
    }
    let value = serde_json::from_slice(document).map_err(|error| error.line())?;
    let mut found = Vec::new();
    strings(&value, &mut found);
    Ok(found)
}

/// Whether both read this document alike; if not, it is printed.
fn is_alike(document: &[u8]) -> bool {
    let (own, wanted) = (of_stand_in(document), of_crate(document));
    if own != wanted {
        println!("{}: {own:?}, but serde_json: {wanted:?}", document.escape_ascii());
    }
    own == wanted
}

/// Whether a line feed is among the four bytes after a `\u`: which line is wrong then differs by the version.
fn cuts_digits(document: &[u8]) -> bool {
    document.windows(2).enumerate().any(|(at, pair)| pair == b"\\u" && document[at..].iter().take(6).any(|&byte| byte == b'\n'))
}

/// A document that some changes make of these.
fn changed(random: &mut Random, documents: &[Vec<u8>]) -> Vec<u8> {
    let mut text = documents[random.below(documents.len())].clone();
    for _ in 0..=random.below(3) {
        let at = random.below(text.len() + 1);
        let to = at + random.below(text.len() - at + 1).min(random.below(8));
        match random.below(5) {
            0 => drop(text.drain(at..to)),
            1 => text.truncate(at),
            2 => {
                let part = text[at..to].to_vec();
                text.splice(at..at, part);
            }
            3 => {
                text.splice(at..to, PIECES[random.below(PIECES.len())].iter().copied());
            }
            _ => {
                text.splice(at..at, PIECES[random.below(PIECES.len())].iter().copied());
            }
        }
    }
    text
}

fn main() {
    let mutations = std::env::args().nth(1).map_or(300_000, |count| count.parse().expect("MUTATIONS is a number"));
    let rows = rows::READ.iter().map(|row| row.0).chain(rows::REFUSED.iter().map(|row| row.0));
    let mut documents: Vec<Vec<u8>> = rows.map(<[u8]>::to_vec).collect();
    documents.extend(shapes::hostile());
    let mut failed = documents.iter().filter(|document| !is_alike(document)).count();
    let count = documents.len();

    // serde_json rounds at each step, so that it refuses other numbers than those that are nearest to infinity.
    documents.retain(|document| document.len() < 2000 && !document.windows(3).any(|part| part == b"308"));
    let mut random = Random(1);
    let mut read = 0;
    for _ in 0..mutations {
        let document = changed(&mut random, &documents);
        read += usize::from(of_crate(&document).is_ok());
        failed += usize::from(!cuts_digits(&document) && !is_alike(&document));
    }
    println!("{count} documents, and {mutations} changed ones, of which {read} are JSON: {failed} differ from serde_json");
    let most = memory::most_for_each_byte();
    println!("at most {most:.1} bytes of memory for each byte of a document");
    if failed > 0 || most > 40.0 || read < mutations / 20 {
        std::process::exit(1);
    }
}
