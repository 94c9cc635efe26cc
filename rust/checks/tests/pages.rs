//! Memory that was not lent: whoever touches it is stopped there and then, and the call is named.

use std::process::Command;

use checks::lend::{Edge, Room};
use checks::pages::{making, tell_of_touched_pages};

const WHERE: &str = "CHECKS_TOUCH";

/// Runs this very test once more, in a process of its own that touches a byte beside what is lent.
fn touch(place: &str) -> (Option<i32>, String) {
    let mut again = Command::new(std::env::current_exe().expect("this program"));
    let done = again.args(["--exact", "a_byte_beside", "--nocapture"]).env(WHERE, place).output().expect("run");
    (done.status.code(), String::from_utf8_lossy(&done.stderr).into_owned())
}

fn lent_and_touched(place: &str) -> u8 {
    let mut room = Room::<u8>::default();
    let (edge, beside) = if place == "behind" { (Edge::Behind, 4) } else { (Edge::Before, -1) };
    let lent = room.lend(b"lent", edge);
    // SAFETY: none; the page there cannot be read, so the program ends here.
    unsafe { lent.as_ptr().offset(beside).read_volatile() }
}

#[test]
fn a_byte_beside() {
    if let Ok(place) = std::env::var(WHERE) {
        tell_of_touched_pages();
        making(5, 17);
        panic!("a byte that was not lent was read: {}", lent_and_touched(&place));
    }
    for place in ["behind", "before"] {
        let (status, words) = touch(place);
        assert_eq!(status, Some(1), "{words}");
        assert!(words.contains("was touched, in the call of: differ --replay 5 17"), "{words}");
    }
}
