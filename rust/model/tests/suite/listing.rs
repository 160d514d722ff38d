//! The worked session of "The session" and its listing, byte for byte.

use std::io::Write;
use std::process::{Command, Stdio};

use model::codec::MAX_SESSION;
use model::listing::listing;

use crate::support::hex;

const SESSION: &str = "52534C31 0F0100283C00 0F0300283C00 210602000000 210702000000 \
    1705002D07000000 0F0101283200 0F0301283200 210605000000 210705000000 0704012D 210606000000 \
    210706000000 210603000000 0704012D 210703000000";

const LISTING: &str = "step code a b
1 1 1 0
2 1 2 0
3 0 0 0
4 6 2 0
5 1 3 0
6 1 4 0
7 1 5 0
8 0 0 0
9 6 5 0
10 1 6 0
11 0 0 0
12 3 0 0
13 0 0 0
14 2 0 0
15 5 3 0
end 0 15 92
";

#[test]
fn worked_session() {
    assert_eq!(listing(&hex(SESSION)), LISTING);
}

#[test]
fn worked_session_by_the_program() {
    let mut child = Command::new(env!("CARGO_BIN_EXE_listing"))
        .stdin(Stdio::piped())
        .stdout(Stdio::piped())
        .spawn()
        .expect("the program starts");
    let mut input = child.stdin.take().expect("standard input is piped");
    input.write_all(&hex(SESSION)).expect("it reads its input");
    drop(input);
    let output = child.wait_with_output().expect("it ends");
    assert!(output.status.success());
    assert_eq!(String::from_utf8(output.stdout).as_deref(), Ok(LISTING));
}

/// "For a refused run only the header and an end line: its number, 0, 0."
#[test]
fn refused_sessions() {
    assert_eq!(listing(&[]), "step code a b\nend 23 0 0\n");
    assert_eq!(listing(&hex("52534C32")), "step code a b\nend 23 0 0\n");
    let long = vec![0; MAX_SESSION + 1];
    assert_eq!(listing(&long), "step code a b\nend 37 0 0\n");
}

/// A session without records ends at place 4; a bad record ends it with the record's number.
#[test]
fn short_sessions() {
    assert_eq!(listing(&hex("52534C31")), "step code a b\nend 0 0 4\n");
    let cut = hex("52534C31 050A80 050A80 0704");
    let expected = "step code a b\n1 0 0 0\n2 35 0 0\nend 24 2 10\n";
    assert_eq!(listing(&cut), expected);
}

/// Document 02 §1: a step of kind 14 is listed with the first and last entry.
#[test]
fn a_found_interval() {
    let session =
        hex("52534C31 050E2D 0F0100283C00 0F0300283C00 210602000000 050E2D 050A32 050E3C");
    let expected = "step code a b
1 9 0 255
2 1 1 0
3 1 2 0
4 0 0 0
5 9 40 59
6 0 0 0
7 9 60 255
end 0 7 34
";
    assert_eq!(listing(&session), expected);
}

/// Document 02 §2: loads at an open and at a barred entry.
#[test]
fn loads() {
    let session = hex(
        "52534C31 150F0905000000 210601000000 210701000000 050C09 150F09FFFFFFFF \
        210602000000 210702000000",
    );
    let expected = "step code a b
1 1 1 0
2 0 0 0
3 4 1 5
4 0 0 0
5 1 2 0
6 0 0 0
7 5 2 0
end 0 7 45
";
    assert_eq!(listing(&session), expected);
}

/// The most records a session can hold, 3 bytes each after the mark, all find a place in the list.
#[test]
fn longest_session() {
    let mut session = hex("52534C31");
    session.extend(hex("030D00").repeat(5_460));
    assert_eq!(session.len(), MAX_SESSION);
    let text = listing(&session);
    assert!(text.ends_with("\n5460 0 0 0\nend 0 5460 16384\n"));
    assert_eq!(text.lines().count(), 5_462);
}
