//! The calls on worked rows of the repository, whose files say what is right.

use aries::{Error, Recovery};
use std::fs;
use std::path::PathBuf;

struct Row(PathBuf);

impl Row {
    fn of(name: &str) -> Self {
        Self(
            PathBuf::from(env!("CARGO_MANIFEST_DIR"))
                .join("../../crates/row_files/data")
                .join(name),
        )
    }

    fn bytes(&self, name: &str) -> Vec<u8> {
        fs::read(self.0.join(name)).expect("a file of the row")
    }

    fn recover(&self) -> Result<Recovery, Error> {
        aries::recover(&self.bytes("log"), &self.bytes("store"))
    }

    fn audit(&self) -> Result<(), Error> {
        aries::audit(&self.bytes("log"), &self.bytes("store"))
    }

    fn audit_over_base(&self) -> Result<(), Error> {
        aries::audit_from(
            &self.bytes("log"),
            &self.bytes("store"),
            &self.bytes("base"),
        )
    }

    /// What `aries` prints of this recovery.
    fn is_printed(&self, printed: &str) -> bool {
        self.bytes("printed") == printed.as_bytes()
    }
}

fn printed(recovery: &Recovery) -> String {
    let report = &recovery.report;
    let mut text = format!(
        "records {}\ntorn {}\nredo-from {}\nredone {}\nlosers {}\ncompensated {}\nended {}\npages {}\n",
        report.records,
        report.torn,
        report.redo_from,
        report.redone,
        report.losers,
        report.compensated,
        report.ended,
        report.pages
    );
    if !recovery.in_doubt.is_empty() {
        text += &format!("in-doubt {}\n", recovery.in_doubt.len());
    }
    recovery
        .in_doubt
        .iter()
        .for_each(|number| text += &format!("transaction {number}\n"));
    text
}

#[test]
fn makes_the_files_of_rows() {
    for name in [
        "two-losers",
        "torn-tail",
        "prepared-beside-loser",
        "checkpoint-loser",
        "base-loser",
        "ten-pages",
    ] {
        let row = Row::of(name);
        let made = row.recover().expect(name);
        let mut log = row.bytes("log");
        log.truncate(made.kept);
        log.extend(&made.tail);
        assert!(
            log == row.bytes("out-log") && made.store == row.bytes("out-store"),
            "{name}"
        );
        assert!(row.is_printed(&printed(&made)), "{name}");
    }
}

#[test]
fn tells_why_not() {
    for name in [
        "bad-master",
        "two-bad-hops",
        "page-ahead",
        "no-such-page",
        "bad-frame-11",
        "length-too-small",
    ] {
        let row = Row::of(name);
        let error = row.recover().expect_err(name);
        assert!(row.is_printed(&format!("{error}\n")), "{name}: {error}");
    }
}

#[test]
fn audits() {
    assert_eq!(Row::of("two-losers").audit(), Ok(()));
    assert_eq!(Row::of("dirty-write").audit(), Err(Error::DirtyWrite(2)));
    assert_eq!(Row::of("wrong-prev").audit(), Err(Error::WrongPrevLsn(2)));
    assert_eq!(Row::of("base-commit").audit_over_base(), Ok(()));
    assert_eq!(
        Row::of("base-store-bad-lsn").audit_over_base(),
        Err(Error::BadBaseStore)
    );
}

#[test]
fn from_many_threads() {
    let row = Row::of("two-losers");
    let wanted = row.recover().expect("a recovery");
    std::thread::scope(|scope| {
        for _ in 0..8 {
            scope.spawn(|| assert_eq!(row.recover().as_ref(), Ok(&wanted)));
        }
    });
}
