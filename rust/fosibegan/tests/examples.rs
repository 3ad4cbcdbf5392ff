//! The programs of `examples/` are run, and what they print is compared with what it should be.

use std::ffi::OsStr;
use std::fs;
use std::io::{BufRead, BufReader, Read, Write};
use std::path::PathBuf;
use std::process::{Child, ChildStdin, ChildStdout, Command, Stdio};

const EXAMPLES: [&str; 4] = ["allow_list", "ledger", "routes", "two_lists"];

/// Where cargo puts the program of this example: next to the folder of the tests.
fn path(example: &str) -> PathBuf {
    let mut path = std::env::current_exe().unwrap();
    path.pop();
    path.set_file_name("examples");
    path.push(format!("{example}{}", std::env::consts::EXE_SUFFIX));
    path
}

/// Whether cargo has built the examples. It does unless it is asked for other targets alone, as by
/// `cargo test --tests`: then there is nothing to run.
fn are_built() -> bool {
    let built = EXAMPLES.map(|example| path(example).is_file());
    assert!(
        built == [true; 4] || built == [false; 4],
        "{EXAMPLES:?}: {built:?}"
    );
    built[0]
}

fn program(example: &str) -> Command {
    Command::new(path(example))
}

/// The status of a program, and what it prints on standard output and standard error.
fn run<A: AsRef<OsStr>>(example: &str, arguments: &[A], input: &str) -> (i32, String, String) {
    let mut child = program(example)
        .args(arguments)
        .stdin(Stdio::piped())
        .stdout(Stdio::piped())
        .stderr(Stdio::piped())
        .spawn()
        .unwrap();
    // A program that refuses its arguments reads nothing.
    let _ = child.stdin.take().unwrap().write_all(input.as_bytes());
    let output = child.wait_with_output().unwrap();
    let text = |bytes: Vec<u8>| String::from_utf8(bytes).unwrap();
    (
        output.status.code().unwrap(),
        text(output.stdout),
        text(output.stderr),
    )
}

/// A file of this test with this text, at a path of its own.
fn file(name: &str, text: &str) -> PathBuf {
    let path = PathBuf::from(env!("CARGO_TARGET_TMPDIR")).join(name);
    fs::write(&path, text).unwrap();
    path
}

/// A service that answers a line for each line.
struct Service {
    child: Child,
    input: ChildStdin,
    output: BufReader<ChildStdout>,
}

impl Service {
    fn answer(&mut self, line: &str) -> String {
        writeln!(self.input, "{line}").unwrap();
        let mut answer = String::new();
        self.output.read_line(&mut answer).unwrap();
        answer.trim_end().to_owned()
    }
}

#[test]
fn allow_list_is_reloaded_and_a_broken_one_is_refused() {
    if !are_built() {
        return;
    }
    let path = file(
        "allowed.txt",
        "# partners\n192.0.2.0/24 # one\n\n2001:db8::/32\n",
    );
    let mut child = program("allow_list")
        .arg(&path)
        .stdin(Stdio::piped())
        .stdout(Stdio::piped())
        .spawn()
        .unwrap();
    let input = child.stdin.take().unwrap();
    let output = BufReader::new(child.stdout.take().unwrap());
    let mut service = Service {
        child,
        input,
        output,
    };
    assert_eq!(service.answer("192.0.2.255"), "192.0.2.255 allowed");
    assert_eq!(
        service.answer("::ffff:192.0.2.0"),
        "::ffff:192.0.2.0 allowed"
    );
    assert_eq!(service.answer("192.0.3.0"), "192.0.3.0 denied");
    assert_eq!(service.answer("2001:db8::1"), "2001:db8::1 allowed");
    assert_eq!(service.answer("2001:db9::"), "2001:db9:: denied");
    assert_eq!(service.answer("192.0.2"), "192.0.2 is no address");

    let shown = path.display();
    for (text, why) in [
        (
            "10.0.0.0/8\n10.0.0.0/33\n",
            format!("{shown}:2: 10.0.0.0/33: invalid prefix"),
        ),
        (
            "10.1.2.3/8\n",
            format!("{shown}:1: 10.1.2.3/8: has host bits; is 10.0.0.0/8 meant?"),
        ),
        ("# none\n", format!("{shown}: no network in it")),
        ("", format!("{shown}: no network in it")),
    ] {
        fs::write(&path, text).unwrap();
        assert_eq!(service.answer("reload"), format!("old list kept: {why}"));
        assert_eq!(service.answer("192.0.2.1"), "192.0.2.1 allowed");
        assert_eq!(service.answer("10.1.2.3"), "10.1.2.3 denied");
        let (status, stdout, stderr) = run("allow_list", &[&path], "10.1.2.3\n");
        assert_eq!(
            (status, stdout.as_str(), stderr.trim_end()),
            (1, "", why.as_str())
        );
    }

    fs::write(&path, "10.0.0.0/8\n").unwrap();
    assert_eq!(service.answer("reload"), "reloaded");
    assert_eq!(service.answer("192.0.2.1"), "192.0.2.1 denied");
    assert_eq!(service.answer("10.255.255.255"), "10.255.255.255 allowed");

    drop(service.input);
    let mut rest = String::new();
    service.output.read_to_string(&mut rest).unwrap();
    assert_eq!(rest, "");
    assert!(service.child.wait().unwrap().success());
}

#[test]
fn routes_takes_the_longest_network() {
    if !are_built() {
        return;
    }
    let (status, stdout, _) = run(
        "routes",
        &["10.2.3.4", "10.1.9.9", "::ffff:192.0.2.1", "2001:db8:9::1"],
        "",
    );
    let wanted = "10.2.3.4 goes to core (10.0.0.0/8)\n\
                  10.1.9.9 goes to branch by the backup line (10.1.0.0/16)\n\
                  ::ffff:192.0.2.1 goes to partner (192.0.2.0/24)\n\
                  2001:db8:9::1 goes to core (2001:db8::/32)\n";
    assert_eq!((status, stdout.as_str()), (0, wanted));
    let (status, stdout, _) = run("routes", &["192.0.3.0"], "");
    assert_eq!((status, stdout.as_str()), (1, "192.0.3.0 has no route\n"));
    let none: [&str; 0] = [];
    for (arguments, why) in [
        (&none[..], "usage: routes ADDRESS..\n"),
        (&["10.1"], "10.1: invalid IP address syntax\n"),
        (
            &["10.2.3.4", "10.1.2.3/8"],
            "10.1.2.3/8: invalid IP address syntax\n",
        ),
    ] {
        assert_eq!(
            run("routes", arguments, ""),
            (2, String::new(), why.to_owned())
        );
    }
}

#[test]
fn ledger_gives_each_block_once() {
    if !are_built() {
        return;
    }
    let changes = [
        ("next 28 mail", "10.0.0.0/28 mail"),
        ("next 28 web", "10.0.0.16/28 web"),
        (
            "take 10.0.0.0/29 shop",
            "refused: 10.0.0.0/29 is held at least in part",
        ),
        (
            "take 10.0.0.0/26 shop",
            "refused: 10.0.0.0/26 is held at least in part",
        ),
        (
            "take 10.0.1.0/28 shop",
            "refused: 10.0.1.0/28 is not within 10.0.0.0/24",
        ),
        (
            "take 10.0.0.0/23 shop",
            "refused: 10.0.0.0/23 is not within 10.0.0.0/24",
        ),
        ("take 10.0.0.240/28 shop", "10.0.0.240/28 shop"),
        (
            "free",
            "free: 10.0.0.32/27 10.0.0.64/26 10.0.0.128/26 10.0.0.192/27 10.0.0.224/28",
        ),
        ("release 10.0.0.0/29", "refused: nobody holds 10.0.0.0/29"),
        ("release 10.0.0.0/28", "10.0.0.0/28 released by mail"),
        ("release 10.0.0.0/28", "refused: nobody holds 10.0.0.0/28"),
        // The first half has web, the second shop.
        ("next 25 big", "refused: no /25 is free in 10.0.0.0/24"),
        ("release 10.0.0.240/28", "10.0.0.240/28 released by shop"),
        ("next 25 big", "10.0.0.128/25 big"),
        ("next 26 more", "10.0.0.64/26 more"),
        ("next 33 none", "refused: no /33 is free in 10.0.0.0/24"),
        (
            "take 10.0.0.0/33 none",
            "refused: 10.0.0.0/33: invalid prefix",
        ),
        ("next 23 none", "refused: no /23 is free in 10.0.0.0/24"),
        (
            "sell 10.0.0.0/28",
            "refused: sell 10.0.0.0/28: what is to be done?",
        ),
    ];
    let (input, wanted): (Vec<&str>, Vec<&str>) = changes.into_iter().unzip();
    let (status, stdout, _) = run("ledger", &["10.0.0.0/24"], &input.join("\n"));
    assert_eq!((status, stdout.lines().collect()), (1, wanted));
    assert_eq!(run("ledger", &["10.0.0.0/24"], "next 28 mail\n").0, 0);
    let why = "10.0.0.0/33: invalid prefix\n";
    assert_eq!(
        run("ledger", &["10.0.0.0/33"], "free\n"),
        (2, String::new(), why.to_owned())
    );
}

#[test]
fn two_lists_compares_addresses() {
    if !are_built() {
        return;
    }
    let old = file("old.txt", "10.0.0.0/9\n10.128.0.0/9\n192.0.2.0/24\n");
    let new = file(
        "new.txt",
        "10.0.0.0/8\n192.0.2.128/25 # half\n2001:db8::/32\n",
    );
    let (status, stdout, _) = run("two_lists", &[&old, &new], "");
    let wanted = "- 192.0.2.0/25\n+ 2001:db8::/32\n  10.0.0.0/8\n  192.0.2.128/25\n";
    assert_eq!((status, stdout.as_str()), (1, wanted));
    let whole = file("whole.txt", "192.0.2.0/24\n10.0.0.0/8\n");
    let (status, stdout, _) = run("two_lists", &[&old, &whole], "");
    assert_eq!(
        (status, stdout.as_str()),
        (0, "  10.0.0.0/8\n  192.0.2.0/24\n")
    );
    let broken = file("broken.txt", "10.0.0.0/8\n10.0.0.0/8/8\n");
    let (status, stdout, stderr) = run("two_lists", &[&old, &broken], "");
    assert_eq!((status, stdout.as_str()), (2, ""));
    assert!(
        stderr.contains("broken.txt:2: 10.0.0.0/8/8: invalid cidr format"),
        "{stderr}"
    );
}
