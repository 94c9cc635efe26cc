//! Damage to a dossier's bytes, whatever they mean, and dossiers of a given size.

use super::passage::{DOSSIER, LINE};
use super::random::Random;

/// Bytes that mean something in a dossier, and their neighbours.
const SPECIAL: &[u8] = b"\\|\r\n\0GTLrnip0x \x1f\x7f\x80\xff\t\\\\";

/// Does one or a few small damages.
pub fn damage(bytes: &mut Vec<u8>, random: &mut Random) {
    for _ in 0..*random.pick(&[1, 1, 1, 2, 3]) {
        if bytes.is_empty() {
            bytes.push(*random.pick(SPECIAL));
            continue;
        }
        let place = random.below(bytes.len());
        match random.below(10) {
            0 => bytes[place] ^= 1 << random.below(8),
            1 => bytes[place] = random.byte(),
            2 | 3 => bytes[place] = *random.pick(SPECIAL),
            4 | 5 => bytes.insert(place, *random.pick(SPECIAL)),
            6 => bytes.truncate(place),
            7 => drop(bytes.remove(place)),
            8 => insert_pair(bytes, place, random),
            _ => move_lines(bytes, random),
        }
    }
}

/// Two special bytes together: escapes, line ends and marks in odd places.
fn insert_pair(bytes: &mut Vec<u8>, place: usize, random: &mut Random) {
    let pair: &[u8] = random.pick::<&[u8]>(&[
        b"\r\n", br"\0", br"\i", br"\p", br"\r", br"\n", br"\G", br"\T", br"\L", br"\x", b"||", b"\n\r", br"\\",
    ]);
    bytes.splice(place..place, pair.iter().copied());
}

/// Swaps, repeats or leaves out a line.
fn move_lines(bytes: &mut Vec<u8>, random: &mut Random) {
    let mut lines: Vec<Vec<u8>> = bytes.split_inclusive(|&byte| byte == b'\n').map(<[u8]>::to_vec).collect();
    let (one, other) = (random.below(lines.len()), random.below(lines.len()));
    match random.below(3) {
        0 => lines.swap(one, other),
        1 => {
            let line = lines[one].clone();
            lines.insert(other, line);
        }
        _ => drop(lines.remove(one)),
    }
    *bytes = lines.concat();
}

/// Makes the dossier so long that it has a size at or over the most: by a table that nobody wants behind the group line, or now and then by
/// the group line itself; or cuts it there, so that it ends early at the largest offset.
pub fn grow(bytes: &mut Vec<u8>, random: &mut Random) {
    let size = DOSSIER - 1 + *random.pick(&[0, 1, 1, 2, 2, 2, 65]);
    if let Some(line_end) = bytes.iter().position(|&byte| byte == b'\r') {
        let missing = size.saturating_sub(bytes.len());
        let filler = *random.pick(b"x|~ ");
        if random.one_in(4) {
            bytes.splice(line_end..line_end, std::iter::repeat_n(filler, missing));
        } else {
            let behind = (line_end + 2).min(bytes.len());
            bytes.splice(behind..behind, unwanted_table(missing, filler));
        }
    }
    if random.one_in(8) {
        bytes.truncate(DOSSIER);
    }
}

/// A table of no interest, of just so many bytes where there are enough for one, in lines of at most 4,096.
pub fn unwanted_table(size: usize, filler: u8) -> Vec<u8> {
    let mut table = b"\\T\r\n\\L\r\n".to_vec();
    while size > table.len() + 1 {
        let rest = size - table.len();
        // One byte alone would be no line.
        let line = if rest == LINE + 1 { LINE - 1 } else { rest.min(LINE) };
        table.extend(std::iter::repeat_n(filler, line - 2));
        table.extend(b"\r\n");
    }
    table
}

/// Widens a line until it has as many bytes as a line may have, or about as many: the group line or one with a table's name, or any.
pub fn lengthen(bytes: &mut Vec<u8>, random: &mut Random) {
    let lines: Vec<&[u8]> = bytes.split_inclusive(|&byte| byte == b'\n').collect();
    let free = |line: &[u8]| line.starts_with(b"\\G") || line.starts_with(b"\\T");
    let any = random.one_in(3);
    let places: Vec<usize> = (0..lines.len()).filter(|&place| any || free(lines[place])).collect();
    if places.is_empty() {
        return;
    }
    let which = *random.pick(&places);
    let (before, line) = (lines[..which].iter().map(|line| line.len()).sum::<usize>(), lines[which]);
    let size = LINE + *random.pick(&[0, 0, 0, 1, 1, 1, 2, 300, 5_000]) - *random.pick(&[0, 0, 0, 1]);
    let Some(missing) = size.checked_sub(line.len() + 1) else { return };
    let end = before + line.len().saturating_sub(2);
    let filler = *random.pick(b"x|~ ");
    bytes.splice(end..end, std::iter::once(b'|').chain(std::iter::repeat_n(filler, missing)));
}
