//! Lines that are no calls, whatever the port; and some that are, close by.

use crate::host::Host;

#[test]
fn malformed_lines_are_unknown() {
    let mut host = Host::default();
    let lines = [
        "",
        " ",
        "read",
        "read ",
        "read 0",
        "read 0G",
        "read C0",
        "read c0 c0",
        " read c0",
        "read  c0",
        "write c0",
        "room= read c0",
        "room=1,2,3,4,5 read c0",
        "room=1,2,3,4,5,6,7 read c0",
        "room=1,2,3,4,5,+6 read c0",
        "room=1,2,3,4,5,18446744073709551616 read c0",
        "room=1,2,3,4,5,6",
        "select c0 c0",
        "select c0 92c0",
        "select c0 92c0c0c0",
        "select c0 91c0",
        "select c0 92c09202c400",
        "select c0 92c092ffc400",
        "select c0 92c091c0",
        "select c0 92c092d0ffc400",
        "select c0 92c09200a100",
        "lookup c0",
        "lookup c0 a",
        "insert c0",
        "insert c0 - -",
        "merge_from_writer c0",
        "merge_from_compactor c0 c0 c0",
        "owned",
        "owned c0 .",
        "clone c0 - 000102030405060708090a0b0c0d0e0f",
        "clone c0 - 000102030405060708090a0b0c0d0e .",
        "clone c0 - - .",
        "clone c0 - 000102030405060708090a0b0c0d0e0f -",
        "clone c0 - 000102030405060708090a0b0c0d0e0f 00,",
        "read \u{e9}\u{e9}",
        "project c0",
        "project c0 . .",
        "project c0 c0 . .",
        "project c0 . 2:0000000000000000 .",
        "project c0 . 1:00 .",
        "project c0 . . 92c0",
        "project c0 . . .,",
        "union",
        "union -",
        "union . ",
        "union . c0",
        "union . c0:61",
        "union . c0:61:00",
        "union . c0:61:000102030405060708090a0b0c0d0e0f:",
        "union . .:61:000102030405060708090a0b0c0d0e0f",
        "union . c0:.:000102030405060708090a0b0c0d0e0f",
        "union c0:61:000102030405060708090a0b0c0d0e0f",
    ];
    for line in lines {
        assert_eq!(host.answer(line), "unknown", "{line}");
    }
    let good = [
        "room=18446744073709551615,0,0,0,0,00 read c0",
        "select c0 92c0c0",
        "select - 92c092d10000c400",
        "select c0 93c0c0c0",
        "project c0 92c0c0 1:00000000000000ff .,92c0c0",
        "union .",
        "union . -:-:000102030405060708090a0b0c0d0e0f",
        "select c0 dc0002c0dd00000003d000c600000001ffc3",
    ];
    for line in good {
        assert_ne!(host.answer(line), "unknown", "{line}");
    }
}
