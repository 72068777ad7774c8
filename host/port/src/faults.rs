//! Ports that keep a promise badly, each in one way, to show that the host says so.

mod entries;

use crate::host::Host;
use std::cell::Cell;
use std::os::unix::process::ExitStatusExt;
use std::process::{Command, Stdio};

#[derive(Clone, Copy, Debug, PartialEq)]
enum Fault {
    None,
    ReadsPastTheInput,
    WritesTheInput,
    ReadsPastTheRoom,
    ReadsPastATable,
    /// The output changes in a refused call.
    WritesThenRefuses,
    WritesPastTheResult,
    WritesPastTheOutput,
    WritesBeforeTheOutput,
    WritesPastATable,
    SaysTooLong,
    TakesAShortOutput,
    TakesShortTables,
    ReadsTheTables,
    HasNumbersLeft,
    /// The output changes though the prefix was held.
    WritesThoughFound,
    WritesPastAResultTable,
    WritesPastThePool,
    TakesShortResults,
    /// Of a union's memory for all sources.
    WritesPastTheSourcesPool,
    WritesPastTheSets,
    WritesPastTheFresh,
    TakesShortSources,
    TakesShortSets,
    TakesAShortFresh,
    TakesAShortPool,
}

const FAULTS: [Fault; 10] = [
    Fault::WritesThenRefuses,
    Fault::WritesPastTheResult,
    Fault::WritesPastTheOutput,
    Fault::WritesBeforeTheOutput,
    Fault::WritesPastATable,
    Fault::SaysTooLong,
    Fault::TakesAShortOutput,
    Fault::TakesShortTables,
    Fault::ReadsTheTables,
    Fault::HasNumbersLeft,
];

/// Those of an operation with tables for its result.
const MORE: [Fault; 4] = [
    Fault::WritesThoughFound,
    Fault::WritesPastAResultTable,
    Fault::WritesPastThePool,
    Fault::TakesShortResults,
];

/// Those of a union.
const OF_ALL: [Fault; 8] = [
    Fault::WritesPastThePool,
    Fault::WritesPastTheSourcesPool,
    Fault::WritesPastTheSets,
    Fault::WritesPastTheFresh,
    Fault::TakesShortSources,
    Fault::TakesShortSets,
    Fault::TakesAShortFresh,
    Fault::TakesAShortPool,
];

thread_local! {
    static FAULT: Cell<Fault> = const { Cell::new(Fault::None) };
}

fn is(fault: Fault) -> bool {
    FAULT.get() == fault
}

const READ: [&str; 3] = ["read c0", "read -", "read 93c0c0c0"];
const INSERT: [&str; 3] = ["insert c0 61", "insert - 61", "insert 93c0c0c0 -"];

const UNION: [&str; 3] = [
    "union . c0:61:000102030405060708090a0b0c0d0e0f",
    "union .",
    "union 000102030405060708090a0b0c0d0e0f 93c0:61:000102030405060708090a0b0c0d0e0f c0c0:-:000102030405060708090a0b0c0d0e0f",
];

/// Whether some of these calls is answered `broken`. There are at most nine slices of which one in turn is too short in every sixteenth call.
fn found(fault: Fault, calls: [&str; 3]) -> bool {
    FAULT.set(fault);
    let mut host = Host::default();
    (0..16 * 9).any(|i| host.answer(calls[i % 3]).starts_with("broken"))
}

#[test]
fn each_fault_of_reading_is_found() {
    for fault in FAULTS {
        assert!(found(fault, READ), "{fault:?}");
    }
}

#[test]
fn each_fault_of_insert_is_found() {
    for fault in FAULTS.into_iter().chain(MORE) {
        assert!(found(fault, INSERT), "{fault:?}");
    }
}

/// Those that end the run where what is lent ends at the end of pages. The last four show nowhere else.
const PAST: [Fault; 6] = [
    Fault::WritesPastTheOutput,
    Fault::WritesPastATable,
    Fault::ReadsPastTheInput,
    Fault::WritesTheInput,
    Fault::ReadsPastTheRoom,
    Fault::ReadsPastATable,
];

/// In a process of its own, since pages are used in all of it and a fault may end it.
#[test]
#[ignore = "the next test runs it"]
fn calls_on_pages() {
    crate::use_pages();
    let name = std::env::var("FAULT").expect("the name of a fault");
    let named = |fault: &Fault| format!("{fault:?}") == name;
    let fault = FAULTS.into_iter().chain(PAST).find(named).unwrap_or(Fault::None);
    assert_eq!(found(fault, READ), fault != Fault::None);
}

#[test]
fn a_call_that_goes_past_its_pages_ends_the_run() {
    let on_pages = |fault: Fault| {
        let mut command = Command::new(std::env::current_exe().expect("this program"));
        command.args(["--exact", "faults::calls_on_pages", "--ignored"]).env("FAULT", format!("{fault:?}"));
        command.stdout(Stdio::null()).stderr(Stdio::null()).status().expect("it starts")
    };
    for fault in PAST {
        assert_eq!(on_pages(fault).signal(), Some(11), "{fault:?}");
    }
    for fault in FAULTS.into_iter().filter(|fault| !PAST.contains(fault)).chain([Fault::None]) {
        assert!(on_pages(fault).success(), "{fault:?}");
    }
}

#[test]
fn each_fault_of_union_is_found() {
    for fault in FAULTS.into_iter().chain(OF_ALL) {
        assert!(found(fault, UNION), "{fault:?}");
    }
}

#[test]
fn no_fault_is_found_where_there_is_none() {
    assert!(!found(Fault::None, READ));
    assert!(!found(Fault::None, INSERT));
    assert!(!found(Fault::None, UNION));
    let mut host = Host::default();
    assert_eq!(host.answer("read 93c0c0c0"), "ok 93c0c0c0");
    assert_eq!(host.answer("read -"), "refused 18 at 0");
    assert_eq!(host.answer("lookup c0 -"), "ok unsegmented");
    assert_eq!(host.answer("select c0 92c0c0"), "ok unsegmented");
    assert_eq!(host.answer("insert c0 -"), "ok found 0");
    assert_eq!(host.answer("merge_from_writer c0 c0"), "ok -");
    assert_eq!(host.answer("merge_from_compactor c0 c0"), "ok -");
    assert_eq!(host.answer("owned c0"), "ok .");
    assert_eq!(host.answer("clone c0 - 000102030405060708090a0b0c0d0e0f ."), "ok -");
    assert_eq!(host.answer("insert 93c0c0c0 61"), "ok entered 0 93c0c0c0");
    assert_eq!(host.answer("insert - 61"), "refused 18 at 0");
    assert_eq!(host.answer("project c0 . . ."), "ok 0 -");
    assert_eq!(host.answer("union ."), "refused 18 at 0");
    assert_eq!(host.answer(UNION[2]), "ok 93c0c0c0");
}
