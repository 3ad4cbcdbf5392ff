//! Documents that are hostile by their length, depth or keys.

fn nested(levels: usize, open: &str, inner: &str, close: &str) -> Vec<u8> {
    [open.repeat(levels).as_str(), inner, close.repeat(levels).as_str()].concat().into_bytes()
}

/// Documents that go wrong at the limits, or that are long.
pub fn hostile() -> Vec<Vec<u8>> {
    let mut found = Vec::new();
    for levels in [1, 2, 126, 127, 128, 129, 1000, 100_000] {
        for (open, close) in [("[", "]"), ("{\"a\":", "}"), ("[\n", "]"), ("[0,{\"b\": \"x\", \"a\":", ",\"y\"}]"), ("[", "")] {
            found.push(nested(levels, open, "\"a\"", close));
            found.push(nested(levels, open, "", close));
        }
    }
    for count in [0, 1, 2, 127, 128, 1000] {
        for (item, last) in [("[],", "[]"), ("{},", "0"), ("\"\",", "\"\""), ("0,", "\"a\""), ("[\"a\"],", "1"), ("1,", "")] {
            found.push([&b"["[..], item.repeat(count).as_bytes(), last.as_bytes(), b"]"].concat());
        }
        let keys = |name: &dyn Fn(usize) -> String| {
            let members: Vec<String> = (0..count).map(|at| format!("\"{}\":\"{at}\"", name(at))).collect();
            format!("{{{}}}", members.join(",")).into_bytes()
        };
        found.push(keys(&|_| "same".into()));
        found.push(keys(&|at| (at * 7919 % 1000).to_string()));
        found.push(keys(&|at| format!("{}{}", "long".repeat(100), at % 3)));
        found.push(keys(&|at| format!("\\u{:04x}", 0xd7ff - at % 5)));
        found.push(keys(&|at| ["\\ud83d\\ude00", "\u{1f600}", "\\uffff", "\u{ffff}", "\\/", "/"][at % 6].into()));
    }
    for digits in [1, 19, 20, 21, 300, 308, 310, 400, 5000] {
        for (before, after) in [("", ""), ("-", ""), ("", ".5"), ("0.", ""), ("0.", "e400"), ("", "e-400"), ("1e", ""), ("1e-", "")] {
            for digit in ["1", "0", "9"] {
                found.push(format!("[{before}{}{after}]", digit.repeat(digits)).into_bytes());
            }
        }
    }
    for code in (0xd700..0xe100).step_by(13) {
        found.push(format!("\"\\u{code:04X}\"").into_bytes());
        found.push(format!("\"\\u{code:04x}\\udc00\"").into_bytes());
        found.push(format!("\"\\ud800\\u{code:04x}\"").into_bytes());
    }
    for byte in 0..=255 {
        found.push(vec![byte]);
        found.push(vec![b'"', byte, b'"']);
        found.push(vec![b'"', b'\\', byte, b'"']);
        found.push(vec![b'[', byte, b']']);
        found.push(vec![b'1', byte]);
        found.push(vec![b'"', 0xe2, byte, 0xac, b'"']);
    }
    found
}

/// Documents of so many items that take much memory for their length.
pub fn heavy(count: usize) -> Vec<(&'static str, Vec<u8>)> {
    let filled = |first: &str, item: &str, last: &str| [first, item.repeat(count).as_str(), last].concat().into_bytes();
    let deep = ["[".repeat(125).as_str(), "\"\"", "]".repeat(125).as_str(), ","].concat();
    vec![
        ("brackets that are never closed", filled("[", "[", "")),
        ("numbers", filled("[", "0,", "0]")),
        ("empty arrays", filled("[", "[],", "0]")),
        ("empty strings", filled("[", "\"\",", "0]")),
        ("empty strings, never closed", filled("[", "\"\",", "")),
        ("arrays of one string", filled("[", "[\"\"],", "0]")),
        ("strings in 125 arrays", filled("[", &deep, "0]")),
        ("strings with an escape", filled("[", "\"\\n\",", "0]")),
        ("members that are numbers", filled("{", "\"\":0,", "\"\":0}")),
        ("members that are strings", filled("{", "\"\":\"\",", "\"\":\"\"}")),
        ("keys with an escape", filled("{", "\"\\n\":\"\",", "\"\":\"\"}")),
        ("objects of a string", filled("[", "{\"\":\"\"},", "0]")),
        ("objects of a number", filled("[", "{\"a\":1},", "0]")),
        ("a long string", filled("[\"", "a", "\"]")),
        ("a long string of escapes", filled("[\"", "\\n", "\"]")),
    ]
}
