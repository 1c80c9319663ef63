//! The sessions of the manual, docs/ROUTES.md, line by line.

use jolmidda::{Error, Table};
use std::fs;
use std::path::Path;

#[test]
fn sessions_of_the_manual() {
    let examples = Path::new(env!("CARGO_MANIFEST_DIR")).join("../../examples");
    for name in [
        "session",
        "add",
        "del",
        "all",
        "pages",
        "count",
        "ninth",
        "bad-routes",
    ] {
        let read = |end| fs::read_to_string(examples.join(name).with_extension(end)).unwrap();
        let mut table = Table::new().unwrap();
        let replies: Result<String, Error> =
            read("txt").lines().map(|line| table.line(line)).collect();
        assert_eq!(replies, Ok(read("out")), "{name}");
    }
}

#[test]
fn a_line_of_any_bytes() {
    let mut table = Table::new().unwrap();
    for line in [&b""[..], b"\0", b"\xff\xfe", b"count\n", &[b'a'; 100_000]] {
        assert_eq!(table.line(line).as_deref(), Ok("bad\n"));
    }
    assert_eq!(table.line("count").as_deref(), Ok("count 0 0\nok\n"));
}

/// A reply that is longer than the part that is copied at once.
#[test]
fn a_long_reply() {
    let mut table = Table::new().unwrap();
    let nets: Vec<_> = (0..256).map(|part| format!("10.{part}.0.0/16")).collect();
    for net in &nets {
        table.line(format!("add {net} 7")).unwrap();
    }
    let routes: String = nets
        .iter()
        .map(|net| format!("route {net} 7 100\n"))
        .collect();
    assert_eq!(table.line("list ::/0").as_deref(), Ok("ok\n"));
    assert_eq!(table.line("list 0.0.0.0/0"), Ok(routes + "ok\n"));
}
