//! 7.6: a message in parts. Every side is held against its own one call wherever a feed is untouched (`feeding`); here stand the answers.

use crate::feeding::{Feeding, Step};
use crate::lines::*;
use crate::panel::{Day, Panel};
use crate::worlds::damage::unwanted_table;
use crate::worlds::passage::*;

use super::forms::UNKNOWN;
use super::refusals::FORMS;
use super::sizes::update_body;
use super::sound::is_sound;

fn ours() -> Vec<u8> {
    pair(7, b"CXX")
}

/// A dossier of two rows, journeys 1 and 2, with an escape in each.
fn two_rows() -> Vec<u8> {
    let line = Line::update().with("DestinationCode", "\\pa\\i");
    message(&[line.clone(), line.with("VehicleJourneyNumber", "2")])
}

/// The bodies that it gives.
fn two_bodies() -> Vec<u8> {
    let mut bodies = [update_body(), update_body()];
    for (place, body) in bodies.iter_mut().enumerate() {
        body[27] = place as u8 + 1;
        body[DESTINATION_AT..DESTINATION_AT + TEXT_WIDE].copy_from_slice(&padded(b"|a\\"));
    }
    bodies.concat()
}

fn day<'a>(panel: &'a Panel) -> Day<'a> {
    Day::new(panel, 500, 500)
}

/// Whatever the cut: every dossier of the form's cases, and one of two rows, in two parts at every place, byte by byte, and with empty parts.
pub fn cuts(panel: &Panel) {
    for (dossier, fault) in FORMS {
        let bytes = dossier.as_bytes();
        let singly: Vec<&[u8]> = bytes.chunks(1).collect();
        let mut cuts: Vec<Vec<&[u8]>> = vec![vec![], vec![bytes], vec![b"", bytes, b""], singly];
        cuts.extend((0..=bytes.len()).map(|at| vec![&bytes[..at], &bytes[at..]]));
        if !bytes.is_empty() {
            cuts.remove(0);
        }
        for parts in cuts {
            let outcome = day(panel).feed(Feeding::of(7, &parts, &[], 0));
            assert_eq!(outcome.answer[..3], fault.map_or([0, 0, 0], |at| [3, at, 0]), "{dossier:?} as {parts:?}");
        }
    }
    let whole = two_rows();
    let taken = |parts: &[&[u8]]| {
        let mut day = day(panel);
        let outcome = day.feed(Feeding::of(7, parts, &ours(), 132));
        assert_eq!((outcome.answer, outcome.staging), ([0, 1, 0, 0, 144, 2], two_bodies()));
        assert_eq!((&day.state.book[6..72], &day.state.book[78..144]), (&two_bodies()[..66], &two_bodies()[66..]));
    };
    for at in 0..=whole.len() {
        taken(&[&whole[..at], &whole[at..]]);
        let next = (at + 1).min(whole.len());
        taken(&[&whole[..at], b"", &whole[at..next], &whole[next..]]);
        let early = day(panel).feed(Feeding::of(7, &[&whole[..at]], &ours(), 132));
        let ends = whole[..at].ends_with(b"\r\n") && !whole[..at].ends_with(b"PASSTIME\r\n");
        assert_eq!(early.answer[..2], if ends { [0, u64::from(at > 300)] } else { [3, at as u64] });
    }
    for wide in 1..20 {
        taken(&whole.chunks(wide).collect::<Vec<_>>());
    }
}

/// The end with every set of its causes: a register of another length, a staged row out of range, 18, 2, 3, 15, 4, 5, 6 with its line, 6 with
/// line 0, 14, 7 and 8. The first in order is answered.
pub fn end_causes(panel: &Panel) {
    for all in 0..8_192_u32 {
        // The lowest two are those of 1, the third is the form.
        let (set, unknown) = (all >> 3 << 2 | all & 3, all >> 2 & 1 == 1);
        let has = |cause: u32| set >> cause & 1 == 1;
        let mut lines = vec![Line::update(), Line::update()];
        if has(7) {
            lines.push(Line::update().with("DataOwnerCode", "GVB"));
        }
        if has(6) {
            lines.push(Line::update().with("Monitored", "2"));
        }
        let mut dossier = message(&lines);
        let mut next = 4 + lines.len() as u64;
        let wrong_field = next - 1;
        if has(5) {
            dossier.extend(b"one field\r\n");
            next += 1;
        }
        if has(4) {
            dossier.extend(b"\\TLINE\r\n\\L\r\n");
            dossier.extend(vec![b'x'; LINE - 1]);
            dossier.extend(b"\r\n");
            next += 2;
        }
        if has(2) {
            dossier.extend(unwanted_table(65_536 - dossier.len(), b'y'));
        }
        if has(3) {
            dossier.push(b'\n');
        } else if has(2) {
            dossier.push(b'z');
        }
        let room = if has(9) { 131 } else { 132 };
        let cut = 410 % dossier.len();
        let mut feeding = Feeding::of(7, &[&dossier[..cut], &dossier[cut..]], &ours(), room);
        let mut register = if has(8) { pair(8, b"CXX") } else { ours() };
        if has(0) {
            register.pop();
        }
        let end = Step::End { register, staging: room, less: [0, 0] };
        *feeding.steps.last_mut().expect("an end") = end;
        if has(1) {
            let place = feeding.steps.len() - 1;
            feeding.steps.insert(place, Step::Tamper { at: STATUS_AT, bytes: vec![6] });
        }
        let mut day = Day::new(panel, if has(10) { 143 } else { 144 }, if has(11) { 66 } else { 67 });
        let stated = if unknown { UNKNOWN[all as usize % UNKNOWN.len()] } else { 0 };
        let outcome = day.feed(feeding.in_form(stated));
        let expected = match set.trailing_zeros() {
            0 | 1 => [1, 0, 0],
            _ if unknown => [18, 0, 0],
            2 => [2, 0, 0],
            3 => [3, dossier.len() as u64 - 1, 0],
            4 => [15, next, 0],
            5 => [4, wrong_field + 1, 0],
            6 => [5, wrong_field, 16],
            7 => [6, 6, 0],
            8 => [6, 0, 0],
            9 => [14, 0, 0],
            10 => [7, 0, 0],
            11 => [8, 0, 0],
            _ => [0, 1, 0],
        };
        assert_eq!(outcome.answer[..3], expected, "causes {all:013b}");
        let mut staged = [update_body(), update_body()].concat();
        staged.truncate(if has(9) { 66 } else { 132 });
        if has(1) {
            staged[STATUS_AT] = 6;
        }
        staged.resize(room, 0xcc);
        assert_eq!(outcome.staging, staged, "the rows before the first line at fault, causes {all:013b}");
    }
}

/// The staging area: exactly the rows, a byte and a row less, more, none; lent shorter or longer at the end, and for a while; the rows before
/// the first line at fault by each number, and later bytes stay.
pub fn staging(panel: &Panel) {
    let whole = two_rows();
    let (head, first, second) = parted(&whole);
    for lent in 0..=200 {
        let outcome = day(panel).feed(Feeding::of(7, &[&whole], &ours(), lent));
        assert_eq!(outcome.answer[0], if lent < 132 { 14 } else { 0 }, "{lent} bytes");
        let mut staged = two_bodies();
        staged.truncate(lent / 66 * 66);
        staged.resize(lent, 0xcc);
        assert_eq!(outcome.staging, staged);
        let rowless = day(panel).feed(Feeding::of(7, &[&head], &ours(), lent));
        assert_eq!(rowless.answer[..2], [0, 0], "without rows never 14");
    }
    let ended = |lent: [usize; 4]| {
        let mut feeding = Feeding::of(7, &[&head, &first, &second], &ours(), 200);
        for (step, room) in feeding.steps[1..].iter_mut().zip(lent) {
            match step {
                Step::Part { staging, .. } | Step::End { staging, .. } => *staging = room,
                _ => unreachable!("parts and an end"),
            }
        }
        let outcome = day(panel).feed(feeding);
        let held = |place: usize| outcome.staging[place * 66..][..66] == two_bodies()[place * 66..][..66];
        (outcome.answer[0], held(0), held(1))
    };
    assert_eq!(ended([0, 66, 132, 132]), (0, true, true), "only what a row needs when it comes");
    assert_eq!(ended([132, 132, 132, 131]), (14, true, true), "shorter at the end");
    assert_eq!(ended([132, 132, 132, 0]), (14, true, true));
    assert_eq!(ended([132, 132, 132, 200]), (0, true, true), "longer at the end");
    assert_eq!(ended([132, 132, 131, 200]), (14, true, false), "longer too late");
    assert_eq!(ended([132, 65, 132, 132]), (14, false, true), "shorter for a while: a row that came then is lost");
    assert_eq!(ended([132, 132, 66, 132]), (14, true, false));
    let faults: [(&[u8], [u64; 3]); 6] = [
        (b"\\x", [3, whole.len() as u64 + 1, 0]),
        (b"x", [3, whole.len() as u64 + 1, 0]),
        (b"x\r\n", [4, 6, 0]),
        (b"", [0, 1, 0]),
        (b"\\TDATEDPASSTIME\r\n\\Lx\r\n", [4, 7, 0]),
        (b"\\TLINE\r\n", [3, whole.len() as u64 + 8, 0]),
    ];
    for (behind, expected) in faults {
        let dossier = [&whole, behind].concat();
        let outcome = day(panel).feed(Feeding::of(7, &[&dossier], &ours(), 300));
        assert_eq!(outcome.answer[..3], expected);
        assert_eq!(outcome.staging, [two_bodies(), vec![0xcc; 168]].concat(), "on a refusal too");
        // A fault in the first row: the line of the earliest fault counts, not that of the number that is answered.
        let wrong = message(&[Line::update().with("Monitored", "2"), Line::update()]);
        let outcome = day(panel).feed(Feeding::of(7, &[&wrong, behind], &ours(), 300));
        assert_eq!(outcome.answer[0], if expected[0] == 0 { 5 } else { expected[0] });
        assert_eq!(outcome.staging, vec![0xcc; 300]);
        let long = with_group_line(two_rows(), 4_097);
        let outcome = day(panel).feed(Feeding::of(7, &[&long, behind], &ours(), 300));
        assert_eq!(outcome.answer[0], if expected[0] == 3 { 3 } else { 15 });
        assert_eq!(outcome.staging, vec![0xcc; 300]);
    }
}

/// Its head, and the line of each of its two rows.
fn parted(dossier: &[u8]) -> (Vec<u8>, Vec<u8>, Vec<u8>) {
    let lines: Vec<&[u8]> = dossier.split_inclusive(|&byte| byte == b'\n').collect();
    (lines[..3].concat(), lines[3].to_vec(), lines[4].to_vec())
}

/// A line of 4,096 bytes is read and one of 4,097 gets 15, whatever the cut at its end; a dossier of 65,536 bytes is read and one more gets
/// 2, behind a fault of syntax too; rows within the first 65,536 bytes are staged.
pub fn sizes(panel: &Panel) {
    for (size, expected) in [(4_095, [0, 1]), (4_096, [0, 1]), (4_097, [15, 1]), (9_000, [15, 1])] {
        let dossier = with_group_line(two_rows(), size);
        for at in [size - 3, size - 2, size - 1, size, 4_000, 4_094, 4_095, 4_096] {
            let parts = [&dossier[..at.min(size)], &dossier[at.min(size)..]];
            assert_eq!(day(panel).feed(Feeding::of(7, &parts, &ours(), 132)).answer[..2], expected, "{size} at {at}");
        }
        // The same in a line of no interest behind the rows, and one that does not end.
        let behind = [&b"\\TLINE\r\n\\Lx\r\n"[..], &vec![b'~'; size - 2], b"\r\n"].concat();
        let whole = [two_rows(), behind].concat();
        for back in [1, 2, 3, 100] {
            let at = whole.len() - back;
            let outcome = day(panel).feed(Feeding::of(7, &[&whole[..at], &whole[at..]], &ours(), 132));
            assert_eq!(outcome.answer[..2], if expected[0] == 0 { [0, 1] } else { [15, 8] });
            assert_eq!(outcome.staging, two_bodies());
            let outcome = day(panel).feed(Feeding::of(7, &[&whole[..at]], &ours(), 132));
            assert_eq!(outcome.answer[..2], [3, at as u64], "a last line that is not ended");
        }
    }
    let (head, first, second) = parted(&two_rows());
    let rows = [first.clone(), second.clone()].concat();
    for (size, expected) in [(65_535, [0, 1]), (65_536, [0, 1]), (65_537, [2, 0]), (65_600, [2, 0]), (140_000, [2, 0])]
    {
        // The two rows at the very end: as the size grows the second is no more within the first 65,536 bytes, then the first not.
        let before = widened(head.clone(), size - rows.len());
        let dossier = [before, rows.clone()].concat();
        for parts in [
            dossier.chunks(size).collect::<Vec<_>>(),
            dossier.chunks(40_000).collect(),
            dossier.chunks(65_536).collect(),
        ] {
            let outcome = day(panel).feed(Feeding::of(7, &parts, &ours(), 132));
            assert_eq!(outcome.answer[..2], expected, "{size} bytes");
            let within = [size - second.len(), size].iter().filter(|&&end| end <= 65_536).count();
            let staged = [&two_bodies()[..within * 66], &vec![0xcc; 132 - within * 66]].concat();
            assert_eq!(outcome.staging, staged, "{size} bytes");
        }
        let wrong = [b"x", &dossier[1..]].concat();
        let outcome = day(panel).feed(Feeding::of(7, &[&wrong[..9], &wrong[9..]], &ours(), 132));
        assert_eq!(outcome.answer[..2], if expected[0] == 2 { [2, 0] } else { [3, 0] });
        assert_eq!(outcome.staging, vec![0xcc; 132]);
    }
}

/// Every byte of a staged row changed to every value before the end: 1 exactly where no update of the book may be so, 6 with line 0 where the
/// owner is another's, else the row is taken as it is now.
pub fn tampered(panel: &Panel) {
    let whole = two_rows();
    for at in 0..66 {
        for value in 0..=255 {
            let mut body = two_bodies()[..66].to_vec();
            body[at] = value;
            let mut feeding = Feeding::of(7, &[&whole], &ours(), 132);
            feeding.steps.insert(2, Step::Tamper { at, bytes: vec![value] });
            let mut day = day(panel);
            let outcome = day.feed(feeding);
            let book = [&[2, 0, 0, 0, 1, 7], &body[..]].concat();
            let expected = match () {
                _ if !is_sound(panel, &book, &[]) => [1, 0],
                _ if body[..10] != padded(b"CXX") => [6, 0],
                _ => [0, 1],
            };
            assert_eq!(outcome.answer[..2], expected, "byte {at} as {value}");
            if expected[0] == 0 {
                assert_eq!(day.state.book[..72], book, "taken as it is now");
            }
        }
    }
    // A row that lies behind what is lent at the end, or that did not fit, is not looked at.
    let late = Step::Tamper { at: 66 + STATUS_AT, bytes: vec![6] };
    for (lent, number) in [([132, 132], 1), ([132, 131], 14), ([131, 131], 14), ([131, 198], 14), ([66, 132], 14)] {
        let mut feeding = Feeding::of(7, &[&whole], &ours(), lent[0]);
        feeding.staging = vec![0xcc; 200];
        feeding.steps[2] = Step::End { register: ours(), staging: lent[1], less: [0, 0] };
        feeding.steps.insert(2, late.clone());
        assert_eq!(day(panel).feed(feeding).answer[0], number, "{lent:?}");
    }
    // Before everything else that is wrong with the dossier.
    let mut feeding = Feeding::of(7, &[&whole, b"\\x"], &ours(), 132);
    feeding.steps.insert(3, late);
    assert_eq!(day(panel).feed(feeding).answer[0], 1);
}

/// The register as it is lent with the part that ends a row's line, and at the end.
pub fn register(panel: &Panel) {
    let (head, first, second) = parted(&two_rows());
    let (line, line_end) = first.split_at(first.len() - 1);
    let none: Vec<u8> = Vec::new();
    let ended = |lent: [&[u8]; 5], sender: u8| {
        let mut feeding = Feeding::of(sender, &[&head, line, line_end, &second], &ours(), 132);
        for (step, lent) in feeding.steps[1..].iter_mut().zip(lent) {
            match step {
                Step::Part { register, .. } | Step::End { register, .. } => *register = lent.to_vec(),
                _ => unreachable!("parts and an end"),
            }
        }
        day(panel).feed(feeding).answer[..2].to_vec()
    };
    let grants = ours();
    assert_eq!(ended([&grants; 5], 7), [0, 1]);
    assert_eq!(ended([&none, &none, &grants, &grants, &grants], 7), [0, 1], "asked for where a row's line ends");
    assert_eq!(ended([&grants, &grants, &none, &grants, &grants], 7), [6, 4], "granted later does not help");
    assert_eq!(ended([&grants, &grants, &grants, &none, &grants], 7), [6, 5]);
    assert_eq!(ended([&grants, &grants, &grants, &grants, &none], 7), [6, 0], "taken away since");
    assert_eq!(ended([&grants, &grants, &grants, &none, &none], 7), [6, 5], "a 6 found in reading keeps its line");
    assert_eq!(ended([&pair(0, b"CXX"); 5].map(|pair| &pair[..]), 0), [6, 4], "the desk");
    assert_eq!(ended([&pair(1, b"CXX"); 5].map(|pair| &pair[..]), 0), [6, 4]);
    let odd = [&grants[..], &[9]].concat();
    assert_eq!(ended([&odd, &odd, &odd, &odd, &grants], 7), [0, 1], "whole pairs count while feeding");
    assert_eq!(ended([&grants, &grants, &grants, &grants, &odd], 7), [1, 0], "the length is judged at the end");
    let many = [vec![0; 64 * 11], ours()].concat();
    assert_eq!(ended([&many, &many, &many, &many, &grants], 7), [0, 1]);
    assert_eq!(ended([&many; 5], 7), [1, 0]);
    let part = &grants[..10];
    assert_eq!(ended([&grants, part, part, &grants, &grants], 7), [6, 4], "a part of a pair is none");
    assert_eq!(ended([part; 5], 7), [1, 0], "1 before 6");
    assert_eq!(ended([&pair(8, b"CXX"); 5].map(|pair| &pair[..]), 7), [6, 4]);
}

/// Ended again after a refusal, with more room; not twice after an acceptance, nor fed; begun anew; the same memory for the next message.
pub fn again(panel: &Panel) {
    let whole = two_rows();
    let end = |staging, less| Step::End { register: ours(), staging, less };
    let part = |bytes: &[u8]| Step::Part { bytes: bytes.to_vec(), register: ours(), staging: 132 };
    let numbers = |steps: Vec<Step>| {
        let mut day = day(panel);
        let outcome = day.feed(Feeding { sender: 7, form: 0, staging: vec![0xcc; 200], fill: 0, steps });
        (outcome.steps.iter().map(|seen| seen.answer[0]).collect::<Vec<_>>(), day.state.used, day.state.rows)
    };
    let whole_part = || part(&whole);
    let short = vec![
        Step::Begin,
        whole_part(),
        end(131, [0, 0]),
        end(132, [400, 0]),
        end(132, [0, 433]),
        end(132, [0, 0]),
        end(132, [0, 0]),
        whole_part(),
        end(132, [0, 0]),
    ];
    assert_eq!(numbers(short), (vec![0, 0, 14, 7, 8, 0, 1, 1, 1], 144, 2));
    let early = vec![Step::Begin, part(&whole[..20]), end(132, [0, 0]), part(&whole[20..]), end(132, [0, 0])];
    assert_eq!(numbers(early), (vec![0, 0, 3, 0, 0], 144, 2), "a refused end changes nothing");
    let given_up = vec![Step::Begin, part(b"nothing of this"), Step::Begin, whole_part(), end(132, [0, 0])];
    assert_eq!(numbers(given_up), (vec![0, 0, 0, 0, 0], 144, 2));
    let next = vec![Step::Begin, whole_part(), end(132, [0, 0]), Step::Begin, whole_part(), end(132, [0, 0])];
    assert_eq!(numbers(next), (vec![0, 0, 0, 0, 0, 0], 288, 2));
    let rowless = vec![Step::Begin, part(b"\\G\r\n"), end(0, [0, 0]), end(0, [0, 0])];
    assert_eq!(numbers(rowless), (vec![0, 0, 0, 1], 0, 0), "number 0 ends it too");
    let nothing = vec![Step::Begin, end(132, [0, 0])];
    assert_eq!(numbers(nothing), (vec![0, 3], 0, 0), "no part at all is no bytes");
}

/// Zeroed memory, or any other, is no begun feed; and somebody who makes the numbers zero ends it.
pub fn memory(panel: &Panel) {
    let whole = two_rows();
    for fill in [0, 0x01, 0x55, 0xa5, 0xff] {
        let mut feeding = Feeding::of(7, &[&whole, b""], &ours(), 132);
        feeding.fill = fill;
        feeding.steps.remove(0);
        let outcome = day(panel).feed(feeding.clone());
        assert_eq!(outcome.steps.iter().map(|seen| seen.answer[0]).collect::<Vec<_>>(), [1, 1, 1], "{fill}");
        assert_eq!(outcome.staging, vec![0xcc; 132]);
        feeding.steps.insert(0, Step::Begin);
        assert_eq!(day(panel).feed(feeding).answer[0], 0);
    }
    for at in 1..4 {
        let mut feeding = Feeding::of(7, &[&whole[..30], &whole[30..]], &ours(), 132);
        feeding.steps.insert(at, Step::Clear);
        assert_eq!(day(panel).feed(feeding).answer[0], 1);
    }
}
