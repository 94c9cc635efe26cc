//! Messages in parts.

use checks::on_every_side;
use checks::sides::Side;

use crate::desk::*;

on_every_side! {
    the_same_as_in_one_call
    cuts_at_random
    what_is_staged
    no_room_to_stage
    changed_since
    ended_again
    two_side_by_side
    too_long
}

fn cxx() -> Vec<u8> {
    pair(7, "CXX")
}

/// The answer to a dossier in parts, and to the same in one call; both days are the same afterwards.
fn both<S: Side>(desk: &Desk<S>, parts: &[&[u8]], register: &[u8]) -> [u64; 6] {
    let (mut whole, mut fed) = (desk.clone(), desk.clone());
    let mut feed = Feed::<S>::begun(7, 2_000);
    for part in parts {
        assert_eq!(feed.part(part, register), 0);
    }
    let answer = fed.end(&mut feed, register, 2_000);
    assert_eq!(whole.message(&parts.concat(), 7, register), answer);
    assert!(whole.book == fed.book && whole.table == fed.table);
    answer
}

fn the_same_as_in_one_call<S: Side>() {
    let desk = planned::<S>();
    let escaped = row(1, "DRIVING").replace("CIOS", "a\\pb\\i");
    let good = updates(&[escaped, row(2, "CANCEL")]);
    let n = good.len();
    assert_eq!(both(&desk, &[], &cxx()), [3, 0, 0, 0, 67, 1]);
    assert_eq!(both(&desk, &[b""], &cxx()), [3, 0, 0, 0, 67, 1]);
    assert_eq!(both(&desk, &[b"\\", b"G\r", b"", b"\n"], &[]), [0, 0, 0, 0, 67, 1]);
    for at in 0..=n {
        assert_eq!(both(&desk, &[&good[..at], &good[at..]], &cxx()), [0, 1, 0, 0, 67 + 144, 2]);
    }
    assert_eq!(both(&desk, &good.chunks(1).collect::<Vec<_>>(), &cxx())[..2], [0, 1]);
    for (from, to, wanted) in [
        ("CANCEL", "CANCEl", [5, 5, 10]),
        ("|CANCEL", "CANCEL", [4, 5, 0]),
        ("\\p", "\\q", [3, 0, 0]),
        ("\nCXX|2016-03-01|A031|1|0|S1|2", "\nARR|2016-03-01|A031|1|0|S1|2", [6, 5, 0]),
        ("Monitored", "monitored|Monitored", [4, 4, 0]),
        ("Monitored", "DataOwnerCode", [4, 3, 0]),
        ("DATEDPASSTIME", "DATEDPASSTIMe", [0, 0, 0]),
    ] {
        let bad = String::from_utf8(good.clone()).unwrap().replacen(from, to, 1).into_bytes();
        let at = bad.windows(2).position(|w| w == b"\\q").map_or(wanted[1], |at| at as u64 + 1);
        for part in [1, 2, 7, 64, 100, 500] {
            assert_eq!(both(&desk, &bad.chunks(part).collect::<Vec<_>>(), &cxx())[..3], [wanted[0], at, wanted[2]]);
        }
    }
}

fn cuts_at_random<S: Side>() {
    let mut random = Random(0xcafe_f00d_5678_1234);
    let parts: [&[u8]; 9] = [b"\\", b"|", b"\r\n", b"\r", b"\n", b"a", b"\r\n\\T", b"\\p", b"\\0"];
    let good = updates(&[row(1, "DRIVING"), row(2, "CANCEL"), row(3, "PASSED")]);
    let mut seen = [0; 16];
    for round in 0..4_000 {
        let mut dossier = good.clone();
        if round % 4 != 0 {
            let at = random.next(dossier.len() + 1);
            dossier.splice(at..at, parts[random.next(9)].iter().copied());
        }
        let mut cuts: Vec<usize> = (0..random.next(8)).map(|_| random.next(dossier.len() + 1)).collect();
        cuts.extend([0, dossier.len()]);
        cuts.sort();
        let parts: Vec<&[u8]> = cuts.windows(2).map(|cut| &dossier[cut[0]..cut[1]]).collect();
        seen[both(&Desk::<S>::new(300, 300), &parts, &cxx())[0] as usize] += 1;
    }
    assert!([0, 3, 4, 5].iter().all(|&number| seen[number] > 20), "{seen:?}");
}

/// A body as a message writes it.
fn body<S: Side>(row: &str) -> Vec<u8> {
    let mut desk = Desk::<S>::big();
    assert_eq!(desk.send(&[row.to_string()])[0], 0);
    desk.book[6..72].to_vec()
}

fn what_is_staged<S: Side>() {
    let rows = [row(1, "DRIVING"), row(2, "CANCEL"), row(3, "PASSED")];
    let bodies: Vec<Vec<u8>> = rows.iter().map(|row| body::<S>(row)).collect();
    // Each fault in the third row, and how many rows come before it.
    for (from, to, staged) in [
        ("PASSED", "PASSED", 3),
        ("PASSED", "PASSE", 2),
        ("|PASSED", "PASSED", 2),
        ("CANCEL", "\\z", 1),
        ("DRIVING", "DRIVING\n", 0),
        ("Monitored", "Monitore", 0),
    ] {
        let dossier = String::from_utf8(updates(&rows)).unwrap().replacen(from, to, 1);
        for part in [1, 10, 1_000] {
            let mut feed = Feed::<S>::begun(7, 3 * 66 + 5);
            dossier.as_bytes().chunks(part).for_each(|part| assert_eq!(feed.part(part, &cxx()), 0));
            // Without the column the lines have a field more than their label line.
            let staged = if from == "Monitored" { 3 } else { staged };
            assert_eq!(feed.staging[..staged * 66], bodies[..staged].concat(), "{to}");
            assert!(feed.staging[staged * 66..].iter().all(|&byte| byte == 0xCC), "{to}");
        }
    }
    // An owner that is not registered ends it, too, and from the desk every row is so.
    for (sender, register, staged) in [(7, cxx(), 3), (8, cxx(), 0), (0, pair(0, "CXX"), 0), (7, vec![], 0)] {
        let mut feed = Feed::<S>::begun(sender, 198);
        assert_eq!(feed.part(&updates(&rows), &register), 0);
        assert_eq!(feed.staging.iter().filter(|&&byte| byte == 0xCC).count(), 198 - staged * 66);
    }
}

fn no_room_to_stage<S: Side>() {
    let rows: Vec<String> = (0..5).map(|order| row(order, "CANCEL")).collect();
    for (lent, wanted) in [(5 * 66, 0), (5 * 66 - 1, 14), (4 * 66, 14), (65, 14), (0, 14), (6 * 66, 0)] {
        let mut desk = planned::<S>();
        let mut feed = Feed::<S>::begun(7, lent);
        assert_eq!(feed.part(&updates(&rows), &cxx()), 0);
        assert_eq!(desk.end(&mut feed, &cxx(), lent)[0], wanted, "{lent}");
        // 6 before 14, 14 before 7 and 8.
        let mut feed = Feed::<S>::begun(8, lent);
        assert_eq!(feed.part(&updates(&rows), &cxx()), 0);
        assert_eq!(desk.end(&mut feed, &cxx(), lent)[..2], [6, 4]);
        let mut feed = Feed::<S>::begun(7, lent);
        assert_eq!(feed.part(&updates(&rows), &cxx()), 0);
        assert_eq!(Desk::<S>::new(0, 0).end(&mut feed, &cxx(), lent)[0], if wanted == 14 { 14 } else { 7 });
        // Without rows there is always room.
        let mut feed = Feed::<S>::begun(7, 0);
        assert_eq!(feed.part(&updates(&[]), &cxx()), 0);
        assert_eq!(desk.end(&mut feed, &cxx(), 0)[..2], [0, 0]);
    }
    // Shorter at the end than while it was fed.
    let mut desk = planned::<S>();
    let mut feed = Feed::<S>::begun(7, 400);
    assert_eq!(feed.part(&updates(&rows), &cxx()), 0);
    assert_eq!(desk.end(&mut feed, &cxx(), 329)[0], 14);
    assert_eq!(desk.end(&mut feed, &cxx(), 330)[..2], [0, 1]);
}

fn changed_since<S: Side>() {
    let fed = || {
        let mut feed = Feed::<S>::begun(7, 132);
        assert_eq!(feed.part(&updates(&[row(1, "CANCEL"), row(2, "CANCEL")]), &cxx()), 0);
        feed
    };
    let mut desk = planned::<S>();
    assert_eq!(desk.end(&mut fed(), &[], 132)[..2], [6, 0], "the register");
    assert_eq!(desk.end(&mut fed(), &cxx()[..10], 132)[..2], [1, 0], "its length");
    let mut feed = fed();
    feed.staging[66 + 55] = 6;
    assert_eq!(desk.end(&mut feed, &[], 132)[..2], [1, 0], "a staged row out of its range, before 6");
    assert_eq!(desk.end(&mut feed, &cxx(), 131)[0], 14, "which is not lent");
    feed.staging[66 + 55] = 5;
    feed.staging[66] = b'D';
    assert_eq!(desk.end(&mut feed, &cxx(), 132)[..2], [6, 0], "another owner");
    assert_eq!(desk.end(&mut feed, &[cxx(), pair(7, "DXX")].concat(), 132)[..2], [0, 1], "taken as it is now");
    assert_eq!((desk.rows, desk.row(1)[0], desk.row(1)[55]), (2, b'D', 5));
    // Found in reading, it stays.
    let mut feed = Feed::<S>::begun(7, 132);
    assert_eq!(feed.part(&updates(&[row(1, "CANCEL")]), &[]), 0);
    assert_eq!(desk.end(&mut feed, &cxx(), 132)[..2], [6, 4]);
}

fn ended_again<S: Side>() {
    let good = updates(&[row(1, "CANCEL"), row(2, "CANCEL")]);
    let mut desk = Desk::<S>::new(143, 133);
    let mut feed = Feed::<S>::begun(7, 132);
    assert_eq!(feed.part(&good[..50], &cxx()), 0);
    assert_eq!(desk.end(&mut feed, &cxx(), 132)[..2], [3, 50]);
    assert_eq!(feed.part(&good[50..], &cxx()), 0);
    assert_eq!(desk.end(&mut feed, &cxx(), 132)[0], 7);
    desk.book.push(0xAA);
    assert_eq!(desk.end(&mut feed, &cxx(), 132)[0], 8);
    desk.table.push(0xBB);
    assert_eq!(desk.end(&mut feed, &cxx(), 132), [0, 1, 0, 0, 144, 2]);
    assert_eq!(desk.end(&mut feed, &cxx(), 132)[0], 1);
    assert_eq!(feed.part(b"\\G\r\n", &cxx()), 1);
    assert_eq!(desk.end(&mut feed, &cxx(), 132)[0], 1);
    feed.begin(7);
    assert_eq!(feed.part(b"\\G\r\n", &cxx()), 0);
    assert_eq!(desk.end(&mut feed, &cxx(), 132)[..2], [0, 0]);
    assert_eq!(feed.part(b"\\G\r\n", &cxx()), 1);
}

fn two_side_by_side<S: Side>() {
    let mut desk = planned::<S>();
    let (one, other) = (updates(&[row(1, "CANCEL")]), updates(&[row(1, "PASSED"), row(2, "PASSED")]));
    let (mut first, mut second) = (Feed::<S>::begun(7, 66), Feed::<S>::begun(9, 132));
    for at in 0..other.len() {
        assert_eq!(second.part(&other[at..at + 1], &pair(9, "CXX")), 0);
        if at < one.len() {
            assert_eq!(first.part(&one[at..at + 1], &cxx()), 0);
        }
    }
    assert_eq!(desk.end(&mut second, &pair(9, "CXX"), 132)[..2], [0, 1]);
    assert_eq!(desk.end(&mut first, &cxx(), 66)[..2], [0, 2]);
    assert_eq!((desk.book[67 + 5], desk.book[67 + 144 + 5], desk.status(0)), (9, 7, 5));
}

fn too_long<S: Side>() {
    let mut desk = planned::<S>();
    let mut dossier = updates(&[row(1, "CANCEL")]);
    dossier.extend(b"\\Tx\r\n\\Lx\r\n");
    dossier.extend(b"\r\n".repeat((65_536 - dossier.len()) / 2));
    dossier.extend(b"\r\n");
    let n = dossier.len();
    assert!(n > 65_536);
    for part in [1_000, 65_536, 70_000] {
        let mut feed = Feed::<S>::begun(7, 66);
        dossier.chunks(part).for_each(|part| assert_eq!(feed.part(part, &cxx()), 0));
        assert_eq!(feed.staging, body::<S>(&row(1, "CANCEL")));
        assert_eq!(desk.end(&mut feed, &cxx(), 66)[..2], [2, 0]);
        // Nothing behind counts any more.
        assert_eq!(feed.part(b"\0\0\0", &cxx()), 0);
        assert_eq!(desk.end(&mut feed, &cxx(), 66)[..2], [2, 0]);
    }
    let mut feed = Feed::<S>::begun(7, 66);
    assert_eq!(feed.part(b"no dossier", &cxx()), 0);
    for _ in 0..8 {
        assert_eq!(feed.part(&[0; 9_000], &cxx()), 0);
    }
    assert_eq!(desk.end(&mut feed, &cxx(), 66)[..2], [2, 0]);
    // Lines that are too long, and others, until the dossier ends well or not.
    let long = [&b"\\G"[..], &[b'x'; 5_000], b"\r\n"].concat();
    for (behind, wanted) in
        [(&b""[..], [15, 1]), (b"\\T\r\n\\L\r\n", [15, 1]), (b"\\T\r\n", [3, 5_008]), (b"\0", [3, 5_004])]
    {
        for part in [1, 4_096, 4_097, 5_003, 9_000] {
            let mut feed = Feed::<S>::begun(7, 66);
            let dossier = [&long, behind].concat();
            dossier.chunks(part).for_each(|part| assert_eq!(feed.part(part, &cxx()), 0));
            assert_eq!(desk.end(&mut feed, &cxx(), 66)[..2], wanted);
        }
    }
}
