//! The cases of the document and the dossier's form.

use checks::on_every_side;
use checks::sides::Side;

use crate::desk::*;

on_every_side! {
    p1_p2_p3_fields_of_a_message
    p4_escapes
    p5_and_the_whole_of_table_17
    p6_p7_withdrawals
    p8_p9_horizon_and_order_numbers
    p10_p11_small_dossiers
    the_listing
    syntax_faults_by_kind
    syntax_faults_at_random
}

fn p1_p2_p3_fields_of_a_message<S: Side>() {
    let mut desk = Desk::<S>::big();
    let good = row(1, "DRIVING").replace("10:00:30", "31:59:59").replace("2016-03-01|", "2000-02-29|");
    assert_eq!(desk.send(std::slice::from_ref(&good)), [0, 1, 0, 0, 72, 1]);
    let r = desk.row(0);
    assert_eq!(r[..10], *b"CXX\0\0\0\0\0\0\0");
    assert_eq!(r[10..14], 20000229u32.to_be_bytes());
    assert_eq!(r[51..55], 1_456_841_730u32.to_be_bytes());
    assert_eq!(r[55..67], [3, 0, 0x8c, 0xa0, 1, 0xc1, 0xff, 1, 1, 0, 0, 1]);
    assert_eq!(desk.book[..6], [2, 0, 0, 0, 1, 7]);
    assert_eq!(desk.book[69..72], [255, 255, 255]);
    assert_eq!(desk.send(&[good.replace("31:59:59", "32:00:00")]), [5, 4, 12, 0, 72, 1]);
    assert_eq!(desk.send(&[good.replace("2000-02-29", "2023-02-29")]), [5, 4, 2, 0, 72, 1]);
}

fn p4_escapes<S: Side>() {
    let mut desk = Desk::<S>::big();
    assert_eq!(desk.send(&[row(1, "DRIVING").replace("CIOS", "a\\pb\\i")])[0], 0);
    assert_eq!(desk.row(0)[41..51], *b"a|b\\\0\0\0\0\0\0");
    let bad = updates(&[row(1, "DRIVING").replace("CIOS", "\\x")]);
    let at = bad.windows(2).position(|w| w == b"\\x").unwrap() as u64;
    assert_eq!(desk.message(&bad, 7, &[]), [3, at + 1, 0, 0, 72, 1]);
}

fn p5_and_the_whole_of_table_17<S: Side>() {
    let words = ["PLANNED", "CANCEL", "UNKNOWN", "DRIVING", "ARRIVED", "PASSED"];
    let table = ["NJJJJJ", "JJNJJJ", "NJJJJJ", "NJJJJJ", "NJJNJJ", "NNNNJJ"];
    for from in 0..6 {
        for to in 0..6 {
            let mut desk = Desk::<S>::big();
            desk.send(&[row(1, words[from])]);
            assert_eq!(desk.status(0), from as u8);
            let told = row(1, words[to]).replace("10:00:30", "11:11:11").replace("CIOS", "NEW");
            desk.send(&[told]);
            let moved = table[from].as_bytes()[to] == b'J';
            assert_eq!(desk.status(0), if moved { to } else { from } as u8);
            assert_eq!(desk.row(0)[41..44], *b"NEW");
            assert_eq!(desk.row(0)[59..62], 40271u32.to_be_bytes()[1..]);
        }
    }
    let mut desk = Desk::<S>::big();
    desk.send(&[row(1, "ARRIVED"), row(1, "DRIVING")]);
    assert_eq!((desk.rows, desk.used, desk.status(0)), (1, 144, 4));
    desk.send(&[row(1, "PASSED"), row(1, "ARRIVED")]);
    assert_eq!(desk.status(0), 4);
}

fn p6_p7_withdrawals<S: Side>() {
    let mut desk = planned::<S>();
    assert_eq!(desk.send(&[row(1, "CANCEL")])[..2], [0, 1]);
    assert_eq!(desk.send(&[row(1, "UNKNOWN")])[..2], [0, 2]);
    assert_eq!(desk.status(0), 1);
    assert_eq!(desk.withdraw(1, 7), [0, 0, 0, 0, 211, 1]);
    assert_eq!(desk.status(0), 2);
    // The next number counts withdrawn messages too.
    assert_eq!(desk.send(&[row(1, "UNKNOWN")])[..2], [0, 3]);

    let mut desk = planned::<S>();
    desk.send(&[row(1, "PASSED")]);
    desk.send(&[row(1, "CANCEL")]);
    assert_eq!(desk.status(0), 5);
    desk.withdraw(1, 0);
    assert_eq!(desk.status(0), 1);
    desk.withdraw(2, 0);
    assert_eq!(desk.row(0)[51..], [0, 0, 0, 0, 0, 0, 0x8c, 0xa0, 0, 0x8c, 0xa0, 1, 1, 0, 0, 0]);
}

fn p8_p9_horizon_and_order_numbers<S: Side>() {
    let mut desk = Desk::<S>::big();
    let plan = planning(&[
        pass("w", 1, "10:30:00"),
        pass("w", 2, "10:30:01"),
        pass("w", 3, "10:00:00"),
        pass("w", 4, "09:59:59"),
    ]);
    assert_eq!(desk.open(&plan, &calendar(&[day("w", "2016-03-01")]))[5], 4);
    let mut places = [9; 4];
    assert_eq!(desk.board(20160301, 36_000, 1_800, &mut places), [0, 2, 2]);
    assert_eq!(places, [2, 0, 9, 9]);
    assert_eq!(desk.board(20160301, 36_000, 1_801, &mut places[..1]), [0, 1, 3]);
    assert_eq!(desk.board(20160301, 36_000, 0, &mut []), [0, 0, 1]);
    desk.send(&[row(1, "DRIVING")]);
    assert_eq!(desk.rows, 4);
    desk.send(&[row(9, "DRIVING")]);
    assert_eq!(desk.rows, 5);
}

fn p10_p11_small_dossiers<S: Side>() {
    let mut desk = planned::<S>();
    assert_eq!(desk.message(b"", 7, &[]), [3, 0, 0, 0, 67, 1]);
    for sender in [0, 7] {
        assert_eq!(desk.message(b"\\G\r\n", sender, &[]), [0, 0, 0, 0, 67, 1]);
        assert_eq!(desk.message(&updates(&[]), sender, &[]), [0, 0, 0, 0, 67, 1]);
    }
    assert_eq!(desk.open(b"", b""), [3, 0, 0, 1, 67, 1]);
    assert_eq!(desk.open(b"\\G\r\n", b""), [3, 0, 0, 2, 67, 1]);
    assert_eq!(desk.open(b"\\G\r\n", b"\\G\r\n"), [0; 6]);
    let mut nothing = Desk::<S>::new(0, 0);
    assert_eq!(nothing.message(b"\\G\r\n", 1, &[]), [0; 6]);
    assert_eq!(nothing.open(b"\\G\r\n", b"\\G\r\n"), [0; 6]);
    assert_eq!(nothing.withdraw(0, 0)[0], 10);
    assert_eq!(nothing.board(20160301, 0, 0, &mut []), [0; 3]);
    assert_eq!(nothing.send(&[row(1, "CANCEL")])[0], 7);
}

fn the_listing<S: Side>() {
    let mut desk = Desk::<S>::big();
    let plan = planning(&[pass("a", 1, "24:10:00"), pass("b", 1, "00:05:00")]);
    let days = calendar(&[day("a", "2016-03-01"), day("b", "2016-03-02")]);
    assert_eq!(desk.open(&plan, &days), [0, 0, 0, 0, 134, 2]);
    let mut places = [7; 3];
    assert_eq!(desk.board(20160301, 85_800, 1_800, &mut places), [0, 2, 2]);
    assert_eq!(places, [1, 0, 7]);
    // Across a year's end: 25:20:00 on the old year's last day.
    let mut desk = Desk::<S>::big();
    let days = calendar(&[day("a", "2016-12-31")]);
    desk.open(&planning(&[pass("a", 1, "25:20:00")]), &days);
    assert_eq!(desk.board(20170101, 4_800, 0, &mut places)[2], 1);
    assert_eq!(desk.board(20161231, 86_399, 4_801, &mut places)[2], 1);
    assert_eq!(desk.board(20161231, 86_399, 4_800, &mut places)[2], 0);
}

/// The viable-prefix definition, byte by byte.
fn plain_fault(bytes: &[u8]) -> Option<usize> {
    #[derive(Clone, Copy, PartialEq)]
    enum S {
        Start,
        G,
        AfterGroup,
        T,
        AfterTable,
        L,
        Body,
        BodySlash,
        First,
        In,
        Slash(bool),
        Zero,
        Cr,
    }
    let (mut s, mut next) = (S::Start, S::AfterGroup);
    for (i, &b) in bytes.iter().enumerate() {
        let in_line = |b: u8, first: bool| match b {
            b'|' => Some(S::First),
            b'\r' => Some(S::Cr),
            b'\\' => Some(S::Slash(first)),
            32.. => Some(S::In),
            _ => None,
        };
        let escape = |b: u8, first: bool| match b {
            b'r' | b'n' | b'i' | b'p' => Some(S::In),
            b'0' if first => Some(S::Zero),
            _ => None,
        };
        let to = match s {
            S::Start => (b == b'\\').then_some(S::G),
            S::G => (b == b'G').then_some(S::First),
            S::AfterGroup => (b == b'\\').then_some(S::T),
            S::T => (b == b'T').then(|| {
                next = S::AfterTable;
                S::First
            }),
            S::AfterTable => (b == b'\\').then_some(S::L),
            S::L => (b == b'L').then(|| {
                next = S::Body;
                S::First
            }),
            S::Body if b == b'\\' => Some(S::BodySlash),
            S::BodySlash if b == b'T' => {
                next = S::AfterTable;
                Some(S::First)
            }
            S::BodySlash => escape(b, true),
            S::Body | S::First => in_line(b, true),
            S::In => in_line(b, false),
            S::Slash(first) => escape(b, first),
            S::Zero => match b {
                b'|' => Some(S::First),
                b'\r' => Some(S::Cr),
                _ => None,
            },
            S::Cr => (b == b'\n').then_some(next),
        };
        match to {
            Some(to) => s = to,
            None => return Some(i),
        }
    }
    (s != S::AfterGroup && s != S::Body).then_some(bytes.len())
}

fn fault<S: Side>(bytes: &[u8]) -> Option<u64> {
    let a = S::message(bytes, 1, 0, &[], &mut [], &mut [], 0, 0);
    (a[0] == 3).then_some(a[1])
}

fn syntax_faults_by_kind<S: Side>() {
    let cases: &[(&[u8], Option<u64>)] = &[
        (b"", Some(0)),
        (b"G", Some(0)),
        (b"\\", Some(1)),
        (b"\\T", Some(1)),
        (b"\\G", Some(2)),
        (b"\\Ga", Some(3)),
        (b"\\G\r", Some(3)),
        (b"\\G\rx", Some(3)),
        (b"\\G\n", Some(2)),
        (b"\\G\x1f", Some(2)),
        (b"\\G\0\r\n", Some(2)),
        (b"\\G\xef\xbb\xbf\x7f\r\n", None),
        (b"\\G\\0\r\n", None),
        (b"\\G\\0x", Some(4)),
        (b"\\Gx\\0\r\n", Some(4)),
        (b"\\G\\0", Some(4)),
        (b"\\G\\0\n", Some(4)),
        (b"\\G|\\0|\\0\r\n", None),
        (b"\\G\\G\r\n", Some(3)),
        (b"\\G\\", Some(3)),
        (b"\\G\\0\\0\r\n", Some(4)),
        (b"\\G\r\n\r\n", Some(4)),
        (b"\\G\r\nx", Some(4)),
        (b"\\G\r\n\\", Some(5)),
        (b"\\G\r\n\\L", Some(5)),
        (b"\\G\r\n\\G", Some(5)),
        (b"\\G\r\n\\i", Some(5)),
        (b"\\G\r\n\\T\r\n", Some(8)),
        (b"\\G\r\n\\T\r\n\\", Some(9)),
        (b"\\G\r\n\\T\r\n\\T", Some(9)),
        (b"\\G\r\n\\T\r\n\r\n", Some(8)),
        (b"\\G\r\n\\T\r\n\\L\r\n", None),
        (b"\\G\r\n\\T\\0\r\n\\L\\0|\r\n", None),
        (b"\\G\r\n\\T\r\n\\L\r\n\r\n", None),
        (b"\\G\r\n\\T\r\n\\L\r\n\\T\r\n", Some(16)),
        (b"\\G\r\n\\T\r\n\\L\r\n\\L", Some(13)),
        (b"\\G\r\n\\T\r\n\\L\r\n\\G", Some(13)),
        (b"\\G\r\n\\T\r\n\\L\r\n\\0|\\i\\p\\r\\n\r\n", None),
        (b"\\G\r\n\\T\r\n\\L\r\n\\", Some(13)),
        (b"\\G\r\n\\T\r\n\\L\r\na\\T\r\n", Some(14)),
        (b"\\G\r\n\\T\r\n\\L\r\n\\i\\0\r\n", Some(15)),
        (b"\\G\r\n\\T\r\n\\L\r\n\\T\\T\r\n", Some(15)),
        (b"\\G\r\n\\T\r\n\\L\r\n|\\0|\n", Some(16)),
    ];
    for (bytes, wanted) in cases {
        assert_eq!(plain_fault(bytes).map(|o| o as u64), *wanted, "{}", bytes.escape_ascii());
        assert_eq!(fault::<S>(bytes), *wanted, "{}", bytes.escape_ascii());
        // The same behind a group line that moves it over block borders.
        for pad in 55..75 {
            if bytes.len() >= 2 && bytes.starts_with(b"\\G") {
                let moved = [b"\\G", &vec![b'p'; pad][..], b"|", &bytes[2..]].concat();
                assert_eq!(fault::<S>(&moved), plain_fault(&moved).map(|o| o as u64), "{}", moved.escape_ascii());
            }
        }
    }
}

fn syntax_faults_at_random<S: Side>() {
    let mut random = Random(88172645463325252);
    let parts: [&[u8]; 14] =
        [b"\\", b"G", b"T", b"L", b"0", b"\\0", b"|", b"\r\n", b"\r", b"\n", b"a", b"\r\n\\T", b"\\p", b"\xff"];
    let good = updates(&[row(1, "DRIVING"), row(2, "CANCEL"), String::new()]);
    for round in 0..60_000 {
        let mut bytes = if round % 2 == 0 { b"\\G\r\n\\Tx\r\n\\L\r\n".to_vec() } else { good.clone() };
        for _ in 0..1 + random.next(4) {
            let at = random.next(bytes.len() + 1);
            let part = parts[random.next(14)];
            if random.next(3) == 0 && at < bytes.len() {
                bytes[at] = part[0];
            } else {
                bytes.splice(at..at, part.iter().copied());
            }
        }
        if random.next(5) == 0 {
            bytes.truncate(random.next(bytes.len() + 1));
        }
        assert_eq!(fault::<S>(&bytes), plain_fault(&bytes).map(|o| o as u64), "{}", bytes.escape_ascii());
    }
}
