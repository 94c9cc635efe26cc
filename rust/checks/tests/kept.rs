//! The cases that are kept in `cases/`: every side answers as when they were kept, and all leave the same bytes.

use std::collections::BTreeSet;

use checks::case::{kept, Case};
use checks::difference::{difference, see};
use checks::sides::JUDGES;

#[test]
fn every_side_answers_as_kept() {
    let cases = kept().expect("cases that can be read");
    assert!(!cases.is_empty());
    for (folder, case) in cases {
        let seen = see(&case.job, JUDGES);
        assert_eq!(difference(&case.job, &seen), None, "{}", folder.display());
        let given = seen[0].1.as_ref().map(|outcome| outcome.answer);
        assert_eq!(given.ok(), Some(case.answer.expect("a kept answer")), "{}", folder.display());
    }
}

/// A case for each number that the layout lists for each call.
#[test]
fn every_number_of_every_call_is_kept() {
    let cases = kept().expect("cases that can be read");
    // A feed is several calls, and each of them has its number.
    let met: BTreeSet<(layout::Call, u64)> =
        cases.iter().flat_map(|(_, case)| (JUDGES[0].perform)(&case.job).numbers(&case.job)).collect();
    for (call, name) in layout::CALLS {
        for number in layout::numbers_of(call) {
            assert!(met.contains(&(call, number.into())), "{name}: number {number}");
        }
    }
}

#[test]
fn what_is_written_is_read_again() {
    let folder = std::env::temp_dir().join(format!("differ-case-{}", std::process::id()));
    for (kept, case) in kept().expect("cases that can be read") {
        case.write(&folder).expect("written");
        assert_eq!(Case::read(&folder).expect("read"), case, "{}", kept.display());
    }
    std::fs::write(folder.join("call.txt"), "message\nsender 7\nform 0\nused 0\nrows 0\nshift 0\nplaces\n")
        .expect("written");
    assert!(Case::read(&folder).is_err(), "a line that means nothing for the call");
    std::fs::remove_dir_all(&folder).expect("removed");
}
