//! Each refusal of each call, their order, and the sizes.

use checks::on_every_side;
use checks::sides::Side;

use crate::desk::*;

on_every_side! {
    counts_out_of_range
    lent_lengths_that_are_no_multiple
    register
    order_of_refusals_in_a_dossier
    columns
    each_column_outside_its_type
    nothing_as_a_time
    open_refusals
    withdraw_refusals
    board_refusals
    what_a_board_shows
    dossiers_at_the_limit
    lines_at_the_limit
    book_and_table_at_the_limit
}

fn cxx() -> Vec<u8> {
    pair(7, "CXX")
}

fn counts_out_of_range<S: Side>() {
    let desk = planned::<S>();
    for (used, rows) in [
        (68, 1),
        (66, 1),
        (1, 1),
        (67, 2),
        (67, 2049),
        (u64::MAX, 1),
        (67, u64::MAX),
        (u64::MAX, u64::MAX),
        (294_913, 1),
        (1 << 32, 0),
        (67 + (1 << 32), 1),
        (67, 1 + (1 << 58)),
        (67, u64::MAX / 67 + 1),
    ] {
        let (mut b, mut t) = (desk.book.clone(), desk.table.clone());
        assert_eq!(S::message(b"\\G\r\n", 7, 0, &cxx(), &mut b, &mut t, used, rows), [1, 0, 0, 0, used, rows]);
        assert_eq!(S::withdraw(1, 0, &mut b, &mut t, used, rows), [1, 0, 0, 0, used, rows]);
        if rows > 1 {
            assert_eq!(S::board(b"CXX", b"S1", 20160301, 0, 0, &t, rows, &mut []), [1, 0, 0]);
        }
        // Open only hands the counts back.
        assert_eq!(S::open(b"", b"", &mut b, &mut t, used, rows), [3, 0, 0, 1, used, rows]);
        assert_eq!(S::open(b"\\G\r\n", b"\\G\r\n", &mut b, &mut t, used, rows), [0; 6]);
        assert!(b == desk.book && t == desk.table);
    }
}

fn lent_lengths_that_are_no_multiple<S: Side>() {
    let plan = planning(&[pass("w", 1, "10:00:00"), pass("w", 2, "10:00:00")]);
    let days = calendar(&[day("w", "2016-03-01")]);
    assert_eq!(Desk::<S>::new(133, 1000).open(&plan, &days)[0], 7);
    assert_eq!(Desk::<S>::new(134, 133).open(&plan, &days)[0], 8);
    let mut desk = Desk::<S>::new(134 + 71, 134 + 66);
    assert_eq!(desk.open(&plan, &days), [0, 0, 0, 0, 134, 2]);
    assert_eq!(desk.send(&[row(3, "CANCEL")])[0], 7);
    desk.book.push(0xAA);
    assert_eq!(desk.send(&[row(3, "CANCEL")])[0], 8);
    assert_eq!(desk.send(&[row(2, "CANCEL")]), [0, 1, 0, 0, 206, 2]);
    assert_eq!(desk.send(&[row(2, "CANCEL")])[0], 7);
}

fn register<S: Side>() {
    let mut desk = planned::<S>();
    let good = updates(&[row(1, "CANCEL")]);
    for length in [1, 10, 12, 715, 704 + 1] {
        assert_eq!(desk.message(&good, 7, &vec![0; length])[0], 1);
    }
    assert_eq!(desk.message(&good, 7, &[])[..3], [6, 4, 0]);
    assert_eq!(desk.message(&good, 7, &vec![255; 704])[..3], [6, 4, 0]);
    assert_eq!(desk.message(&good, 8, &cxx())[..2], [6, 4]);
    assert_eq!(desk.message(&good, 0, &pair(0, "CXX"))[..2], [6, 4]);
    assert_eq!(desk.message(&good, 7, &pair(7, "CX"))[..2], [6, 4]);
    let mut last = vec![9; 704 - 11];
    last.extend(cxx());
    assert_eq!(desk.message(&good, 7, &last)[..2], [0, 1]);
    let two = updates(&[row(1, "CANCEL"), row(1, "CANCEL").replace("CXX", "ARR"), row(1, "CANCEL")]);
    assert_eq!(desk.message(&two, 7, &cxx())[..3], [6, 5, 0]);
    assert_eq!(desk.message(&two, 7, &[cxx(), pair(7, "ARR")].concat())[..2], [0, 2]);
}

fn order_of_refusals_in_a_dossier<S: Side>() {
    let mut desk = planned::<S>();
    let (six, five, four) = (row(1, "CANCEL").replace("CXX", "ARR"), row(1, "PLAN"), "a|b".to_string());
    assert_eq!(desk.send(&[six.clone(), five.clone(), four.clone()])[..3], [4, 6, 0]);
    assert_eq!(desk.send(&[six.clone(), five.clone()])[..3], [5, 5, 10]);
    assert_eq!(desk.send(&[row(1, "CANCEL"), six.clone(), six.clone()])[..3], [6, 5, 0]);
    // A fault of form anywhere goes first.
    let mut bad = updates(&[six.clone(), five.clone(), four.clone()]);
    bad.push(b'\n');
    assert_eq!(desk.message(&bad, 7, &cxx())[..2], [3, bad.len() as u64 - 1]);
    // Unsound goes before the dossier's size, size before form.
    assert_eq!(desk.message(&vec![0; 65_537], 7, &[0])[0], 1);
    assert_eq!(desk.message(&vec![0; 65_537], 7, &cxx())[..2], [2, 0]);
    assert_eq!(desk.message(&vec![0; 65_536], 7, &cxx())[..2], [3, 0]);
    // A late table's label line goes before a type fault in the first one.
    let mut late = updates(std::slice::from_ref(&five));
    late.extend(b"\\TOTHER\r\n\\La|a\r\nx\r\n\\TDATEDPASSTIME\r\n\\La\r\n");
    assert_eq!(desk.message(&late, 7, &cxx())[..3], [4, 9, 0]);
    // Two faults in one line: the smaller column.
    assert_eq!(desk.send(&[row(1, "PLAN").replace("|CIOS|", "||")])[..3], [5, 4, 8]);
    // 7 after 6; 8 last.
    let mut short = Desk::<S>::new(0, 0);
    assert_eq!(short.send(&[six])[..2], [6, 4]);
    assert_eq!(short.send(&[row(1, "CANCEL")])[0], 7);
}

fn columns<S: Side>() {
    let mut desk = planned::<S>();
    let good = String::from_utf8(updates(&[row(1, "CANCEL")])).unwrap();
    let mut try_one =
        |from: &str, to: &str| desk.message(good.replacen(from, to, 1).as_bytes(), 7, &cxx())[..3].to_vec();
    assert_eq!(try_one("LDataOwnerCode|", "L"), [4, 3, 0]);
    assert_eq!(try_one("DestinationCode|", "DestinationCode |"), [4, 3, 0]);
    assert_eq!(try_one("DestinationCode|", "destinationcode|"), [4, 3, 0]);
    assert_eq!(try_one("Monitored", "Monitored|Monitored"), [4, 3, 0]);
    assert_eq!(try_one("Monitored", "Monitored|DataOwnerCode"), [4, 3, 0]);
    assert_eq!(try_one("Monitored", "Monitored|x"), [4, 4, 0]);
    assert_eq!(try_one("|Monitored", ""), [4, 4, 0]);
    assert_eq!(try_one("|\\0|\\0\r\n", "|\\0\r\n"), [4, 4, 0]);
    assert_eq!(try_one("|\\0|\\0\r\n", "|\\0|\\0|\r\n"), [4, 4, 0]);
    assert_eq!(try_one("\\TDATEDPASSTIME|", "\\TDATEDPASSTIMES|"), [0, 0, 0]);
    assert_eq!(try_one("\\TDATEDPASSTIME|", "\\TDATEDPASSTIM|"), [0, 0, 0]);
    assert_eq!(try_one("CXX|2016", "\r\nCXX|2016"), [4, 4, 0]);
    // Optional columns: absent, empty, in any order, among unwanted ones that recur.
    assert_eq!(try_one("|\\0|\\0\r\n", "||\\0\r\n"), [5, 4, 15]);
    assert_eq!(try_one("|\\0|\\0\r\n", "|\\0|true\r\n"), [5, 4, 16]);
    let mixed = "\\G\r\n\\TDATEDPASSTIME\r\n\\Lq|Monitored|q|UserStopOrderNumber|JourneyStopType|ExpectedDepartureTime|ExpectedArrivalTime|\
TripStopStatus|LastUpdateTimeStamp|DestinationCode|UserStopCode|FortifyOrderNumber|VehicleJourneyNumber|LinePlanningNumber|OperationDate|DataOwnerCode|q\r\n\
|1||001|INTERMEDIATE|10:00:00|09:00:00|DRIVING|2016-03-01T15:15:30+01:00|D|S1|00|000001|A031|2016-03-01|CXX|\\0\r\n";
    assert_eq!(desk.message(mixed.as_bytes(), 7, &cxx())[..3], [0, 1, 0]);
    assert_eq!(desk.rows, 1);
    assert_eq!(desk.row(0)[62..], [1, 1, 0, 1, 1]);
    assert_eq!(
        desk.message(mixed.replace("|S1|", "|\\r|").replace("|D|", "|\\0|").as_bytes(), 7, &cxx())[..3],
        [5, 4, 10]
    );
    // A wanted table may recur, with other columns.
    let again = [mixed.as_bytes(), &updates(&[row(5, "CANCEL")])[10..]].concat();
    assert_eq!(desk.message(&again, 7, &cxx()), [0, 2, 0, 0, 67 + 72 * 3, 2]);
}

fn each_column_outside_its_type<S: Side>() {
    let mut desk = planned::<S>();
    let good: Vec<&str> =
        "CXX|2016-03-01|A031|1|0|S1|1|CIOS|2016-03-01T15:15:30+01:00|CANCEL|10:00:00|10:00:30|INTERMEDIATE|\\0|\\0|\\0"
            .split('|')
            .collect();
    let bad = [
        "",
        "2016-02-30",
        "12345678901",
        "1000000",
        "100",
        "\\n",
        "1000",
        "\\0",
        "2016-03-01T15:15:30",
        "PLAN",
        "\\0",
        "\\0",
        "MIDDLE",
        "2",
        "true",
        "",
    ];
    for first in 0..16 {
        for second in first..16 {
            let mut fields: Vec<String> = good.iter().map(|s| s.to_string()).collect();
            fields[second] = bad[second].into();
            fields[first] = bad[first].into();
            assert_eq!(desk.send(&[row(1, "CANCEL"), fields.join("|")])[..3], [5, 5, first as u64 + 1]);
        }
    }
    for column in 0..13 {
        let mut fields: Vec<String> = good.iter().map(|s| s.to_string()).collect();
        fields[column] = "\\0".into();
        assert_eq!(desk.send(&[fields.join("|")])[..3], [5, 4, column as u64 + 1]);
    }
}

fn nothing_as_a_time<S: Side>() {
    let times = |arrival: &str, departure: &str, kind: &str| {
        let mut desk = Desk::<S>::big();
        let row = row(1, "CANCEL").replace("10:00:00|10:00:30|INTERMEDIATE", &format!("{arrival}|{departure}|{kind}"));
        desk.send(&[row])[..3].to_vec()
    };
    assert_eq!(times("\\0", "10:00:00", "FIRST"), [0, 1, 0]);
    assert_eq!(times("10:00:00", "\\0", "LAST"), [0, 1, 0]);
    assert_eq!(times("10:00:00", "10:00:00", "LAST"), [0, 1, 0]);
    assert_eq!(times("\\0", "10:00:00", "LAST"), [5, 4, 11]);
    assert_eq!(times("\\0", "10:00:00", "INTERMEDIATE"), [5, 4, 11]);
    assert_eq!(times("10:00:00", "\\0", "FIRST"), [5, 4, 12]);
    assert_eq!(times("\\0", "10:00:00", "\\0"), [5, 4, 11]);
    assert_eq!(times("10:00:00", "\\0", "last"), [5, 4, 12]);
    assert_eq!(times("10:00:00", "10:00:00", "last"), [5, 4, 13]);
    assert_eq!(times("\\0", "\\0", "FIRST"), [5, 4, 12]);
}

fn open_refusals<S: Side>() {
    let mut desk = planned::<S>();
    let (good, days) = (planning(&[pass("w", 1, "10:00:00")]), calendar(&[day("w", "2016-03-01")]));
    let long = vec![b'x'; 65_537];
    assert_eq!(desk.open(&long, &long), [2, 0, 0, 1, 67, 1]);
    assert_eq!(desk.open(&good, &long), [2, 0, 0, 2, 67, 1]);
    let bad_type = planning(&[pass("w", 1, "10:00:00"), pass("", 1, "10:00:00")]);
    assert_eq!(desk.open(&bad_type, &long), [5, 5, 2, 1, 67, 1]);
    assert_eq!(desk.open(&good, &calendar(&[day("w", "2016-02-30")])), [5, 4, 3, 2, 67, 1]);
    assert_eq!(desk.open(&planning(&["x".into()]), &[]), [4, 4, 0, 1, 67, 1]);
    assert_eq!(desk.open(&good, &dossier("LOCALSERVICEGROUPVALIDITY", "DataOwnerCode", &[])), [4, 3, 0, 2, 67, 1]);
    // Only its own table is wanted in each dossier.
    assert_eq!(
        desk.open(&dossier("DATEDPASSTIME", "x", &["|".into()]), &dossier("LOCALSERVICEGROUPPASSTIME", "x", &[])),
        [0; 6]
    );
    assert_eq!(desk.open(&good, &days), [0, 0, 0, 0, 67, 1]);
    // One key twice: equal validities, equal pass times, two levels on one date.
    let twice = calendar(&[day("w", "2016-03-01"), day("w", "2016-03-01")]);
    assert_eq!(desk.open(&good, &twice), [9, 0, 0, 0, 67, 1]);
    let levels = planning(&[pass("w", 1, "10:00:00"), pass("v", 1, "11:00:00")]);
    let both = calendar(&[day("w", "2016-03-01"), day("v", "2016-03-01")]);
    assert_eq!(desk.open(&levels, &both)[0], 9);
    assert_eq!(desk.open(&planning(&[pass("w", 1, "10:00:00"), pass("w", 1, "12:00:00")]), &days)[0], 9);
    // Without a validity, or with another owner's, nothing arises.
    let other = calendar(&[day("w", "2016-03-01").replace("CXX", "ARR"), day("x", "2016-03-01")]);
    assert_eq!(desk.open(&planning(&[pass("w", 1, "10:00:00"), pass("w", 1, "12:00:00")]), &other), [0; 6]);
    // 7 by pairs before 9 before 8.
    assert_eq!(Desk::<S>::new(133, 0).open(&good, &twice)[0], 7);
    assert_eq!(Desk::<S>::new(134, 0).open(&good, &twice)[0], 9);
    assert_eq!(Desk::<S>::new(134, 0).open(&good, &days)[0], 8);
}

fn withdraw_refusals<S: Side>() {
    let mut desk = planned::<S>();
    assert_eq!(desk.withdraw(1, 0)[0], 10);
    desk.send(&[row(1, "CANCEL")]);
    for number in [0, 2, u32::MAX] {
        assert_eq!(desk.withdraw(number, 0)[0], 10);
    }
    assert_eq!(desk.withdraw(1, 8)[0], 12);
    assert_eq!(desk.withdraw(1, 7)[0], 0);
    assert_eq!(desk.withdraw(1, 8)[0], 12);
    assert_eq!(desk.withdraw(1, 7)[0], 11);
    assert_eq!(desk.withdraw(1, 0)[0], 11);
    // Book and table disagree: the row comes back, or finds no room.
    desk.send(&[row(1, "CANCEL")]);
    desk.rows = 0;
    let mut short = desk.clone();
    short.table.truncate(66);
    assert_eq!(short.withdraw(2, 7)[0], 8);
    assert_eq!(short.withdraw(2, 6)[0], 12);
    assert_eq!(desk.withdraw(2, 7), [0, 0, 0, 0, 67 + 144, 1]);
    assert_eq!(desk.row(0)[66], 0);
}

fn board_refusals<S: Side>() {
    let desk = planned::<S>();
    let ask = |owner: &[u8], stop: &[u8], date, second, horizon| {
        let mut places = [5; 3];
        let a = S::board(owner, stop, date, second, horizon, &desk.table, desk.rows, &mut places);
        assert!(a[0] == 0 || places == [5; 3]);
        a
    };
    assert_eq!(ask(b"CXX", b"S1", 20160301, 0, 86_400), [0, 1, 1]);
    assert_eq!(ask(b"0123456789", b" ", 20160301, 86_399, 0), [0, 0, 0]);
    for (owner, stop) in [
        (&b""[..], &b"S1"[..]),
        (b"CXX", b""),
        (b"CXX\0\0\0\0\0\0\0", b"S1"),
        (b"CXX", b"01234567890"),
        (b"\x7f", b"S1"),
        (b"\x1f", b"S1"),
    ] {
        assert_eq!(ask(owner, stop, 20160301, 0, 0), [13, 0, 0]);
    }
    for (date, second, horizon) in [
        (20160230, 0, 0),
        (0, 0, 0),
        (u32::MAX, 0, 0),
        (19991231, 0, 0),
        (21000101, 0, 0),
        (20160301, 86_400, 0),
        (20160301, u32::MAX, 0),
        (20160301, 0, 86_401),
        (20160301, 0, u32::MAX),
    ] {
        assert_eq!(ask(b"CXX", b"S1", date, second, horizon), [13, 0, 0]);
    }
    assert_eq!(S::board(b"", b"", 0, 0, 0, &desk.table, 2, &mut [])[0], 1);
}

fn what_a_board_shows<S: Side>() {
    let base = |change: &dyn Fn(&mut [u8])| {
        let mut desk = planned::<S>();
        let at = 0;
        change(&mut desk.table[at..67]);
        let mut places = [3];
        desk.board(20160301, 35_000, 2_000, &mut places)[..3].to_vec()
    };
    let shown = vec![0, 1, 1];
    let hidden = vec![0, 0, 0];
    assert_eq!(base(&|_| ()), shown);
    for (status, cancelled, wanted) in [
        (0, 0, &shown),
        (1, 1, &shown),
        (1, 0, &hidden),
        (1, 2, &hidden),
        (2, 0, &shown),
        (3, 0, &shown),
        (3, 2, &shown),
        (4, 0, &shown),
        (5, 1, &hidden),
    ] {
        assert_eq!(
            base(&|r| {
                r[55] = status;
                r[63] = cancelled
            }),
            *wanted
        );
    }
    for (flexible, monitored, wanted) in
        [(0, 0, &shown), (1, 0, &shown), (2, 0, &hidden), (2, 1, &hidden), (3, 0, &hidden), (3, 1, &shown)]
    {
        assert_eq!(
            base(&|r| {
                r[64] = flexible;
                r[65] = monitored
            }),
            *wanted
        );
    }
    for (kind, wanted) in [(0, &shown), (1, &shown), (2, &hidden)] {
        assert_eq!(base(&|r| r[62] = kind), *wanted);
    }
    assert_eq!(base(&|r| r[31] = b'X'), hidden);
    assert_eq!(base(&|r| r[3] = b'X'), hidden);
    // Sound with heard 0 whatever the status; unsound with a timestamp.
    assert_eq!(base(&|r| r[66] = 1), [1, 0, 0]);
    assert_eq!(base(&|r| r[51] = 0x60), [1, 0, 0]);
    assert_eq!(
        base(&|r| {
            r[51] = 0x60;
            r[66] = 1
        }),
        shown
    );
}

fn dossiers_at_the_limit<S: Side>() {
    let mut desk = Desk::<S>::big();
    let mut rows: Vec<String> = (0..470).map(|i| row(i, "DRIVING")).collect();
    let length = updates(&rows).len();
    rows.truncate(rows.len() - length.saturating_sub(65_000).div_ceil(100));
    let mut full = updates(&rows);
    // An unwanted table fills the dossier to the last byte.
    full.extend(b"\\Tx\r\n\\Lx\r\n");
    while full.len() < 65_536 {
        let rest = (65_536 - full.len()).min(1_000);
        full.extend(vec![b'z'; rest - 2]);
        full.extend(b"\r\n");
    }
    assert_eq!(full.len(), 65_536);
    let n = rows.len() as u64;
    assert_eq!(desk.message(&full, 7, &cxx()), [0, 1, 0, 0, n * 72, n]);
    let mut cut = full.clone();
    cut[65_535] = b'z';
    assert_eq!(desk.message(&cut, 7, &cxx())[..2], [3, 65_535]);
    cut[65_534] = b'z';
    assert_eq!(desk.message(&cut, 7, &cxx())[..2], [3, 65_536]);
    full.push(b'z');
    assert_eq!(desk.message(&full, 7, &cxx())[..2], [2, 0]);
    // Label and data lines of very many columns.
    let wide = [
        b"\\G\r\n\\TDATEDPASSTIME\r\n\\L",
        LABELS.as_bytes(),
        &vec![b'|'; 3_000],
        b"\r\n",
        row(1, "PLAN").as_bytes(),
        &vec![b'|'; 3_000],
        b"\r\n",
    ]
    .concat();
    assert_eq!(desk.message(&wide, 7, &cxx())[..3], [5, 4, 10]);
    let last = [
        b"\\G\r\n\\TDATEDPASSTIME\r\n\\L",
        &vec![b'|'; 3_000][..],
        LABELS.as_bytes(),
        b"\r\n",
        &vec![b'|'; 3_000],
        row(1, "PLAN").as_bytes(),
        b"\r\n",
    ]
    .concat();
    assert_eq!(desk.message(&last, 7, &cxx())[..3], [5, 4, 3_010]);
}

fn lines_at_the_limit<S: Side>() {
    let group = |bytes: usize| [b"\\G", &vec![b'|'; bytes - 4][..], b"\r\n"].concat();
    let mut desk = planned::<S>();
    for (bytes, wanted) in [(4, [0, 0]), (4_095, [0, 0]), (4_096, [0, 0]), (4_097, [15, 1]), (65_536, [15, 1])] {
        assert_eq!(desk.message(&group(bytes), 7, &cxx())[..2], wanted);
        assert_eq!(desk.open(&group(bytes), b"")[..4], if wanted[0] == 0 { [3, 0, 0, 2] } else { [15, 1, 0, 1] });
        let unended = &group(bytes)[..bytes - 1];
        assert_eq!(desk.open(b"\\G\r\n", unended)[..4], [3, bytes as u64 - 1, 0, 2]);
    }
    assert_eq!(desk.message(&group(65_537), 7, &cxx())[..2], [2, 0]);
    // 3 anywhere, then 15, then 4: a line too long behind a line of one field, and a fault of form behind both.
    let mut long = updates(&["one".to_string()]);
    long.extend(&b"\\Tx\r\n\\Lx\r\n"[..]);
    long.extend(vec![b'z'; 4_095]);
    long.extend(b"\r\n");
    assert_eq!(desk.message(&long, 7, &cxx())[..3], [15, 7, 0]);
    long.pop();
    assert_eq!(desk.message(&long, 7, &cxx())[..2], [3, long.len() as u64]);
    // The calendar's line too long comes behind all that is wrong with the planning.
    let bad = planning(&["x".into()]);
    assert_eq!(desk.open(&bad, &group(5_000))[..4], [4, 4, 0, 1]);
    assert_eq!(desk.open(&planning(&[]), &group(5_000))[..4], [15, 1, 0, 2]);
}

fn book_and_table_at_the_limit<S: Side>() {
    // Lent more than the sizes: the rest is never used.
    let mut desk = Desk::<S>::new(300_000, 2_100 * 67);
    let mut sent = 0;
    for part in 0..4 {
        let rows: Vec<String> =
            (0..512u32).map(|i| row(i % 1000, "DRIVING").replace("|1|0|S1|", &format!("|{}|0|S|", part))).collect();
        for half in rows.chunks(256) {
            sent += 1;
            assert_eq!(desk.send(half)[..2], [0, sent]);
        }
    }
    assert_eq!((desk.rows, desk.used), (2_048, 2_048 * 72));
    assert_eq!(desk.send(&[row(999, "DRIVING")])[0], 8);
    for _ in 0..8 {
        let rows: Vec<String> = (0..256u32).map(|i| row(i, "ARRIVED").replace("|1|0|S1|", "|1|0|S|")).collect();
        sent += 1;
        assert_eq!(desk.send(&rows)[..2], [0, sent]);
    }
    assert_eq!((desk.rows, desk.used), (2_048, 294_912));
    assert_eq!(desk.send(&[row(0, "DRIVING")])[0], 7);
    assert_eq!(desk.send(&[])[..2], [0, 0]);
    for number in (1..=sent as u32).rev() {
        assert_eq!(desk.withdraw(number, 7)[0], 0);
    }
    assert_eq!((desk.rows, desk.used), (0, 294_912));
    assert!(desk.table[..2_048 * 67].iter().all(|&b| b == 0));

    // Open: 46 stops times 95 days are 4,370 pairs, more than the table has.
    let passes: Vec<String> = (0..46).map(|i| pass("w", i, "10:00:00")).collect();
    let date = |i: u32| format!("20{:02}-{:02}-{:02}", 10 + i / 336, 1 + i / 28 % 12, 1 + i % 28);
    let days = |n: u32| calendar(&(0..n).map(|i| day("w", &date(i))).collect::<Vec<_>>());
    assert_eq!(desk.open(&planning(&passes), &days(95))[0], 8);
    assert_eq!(desk.open(&planning(&passes), &days(96))[0], 7);
    assert_eq!(desk.open(&planning(&passes[..32]), &days(64)), [0, 0, 0, 0, 2_048 * 67, 2_048]);
    assert_eq!(desk.open(&planning(&passes[..2]), &days(1_025))[0], 8);
    assert_eq!(desk.withdraw(1, 0)[0], 10);
    let mut places = vec![0; 2_048];
    assert_eq!(desk.board(20100101, 0, 86_400, &mut places)[..3], [0, 32, 32]);
    // Every pair of very many, none of them fitting.
    let many: Vec<String> = (0..900).map(|i| pass("w", i, "10:00:00")).collect();
    assert_eq!(desk.open(&planning(&many), &days(2_000))[0], 7);
}
