//! `messages_take` and `messages`: a message's staged rows, where the table has room for all of them to be new.

use super::{apply_row, begin_row, copy_to, find_row, insert_row, put_number, BODY, BODY_AT, ENTRY, ROW};

/// The staged updates into the n rows of t, one after another; the new count. A new row moves all rows behind it.
pub fn take_all(t: &mut [u8], n: usize, staged: &[u8]) -> usize {
    let mut count = n;
    for at in (0..staged.len()).step_by(BODY) {
        match find_row(t, count, staged, at) {
            Ok(i) => apply_row(t, i * ROW, staged, at),
            Err(i) => {
                let mut row = [0; ROW];
                begin_row(&mut row, 0);
                apply_row(&mut row, 0, staged, at);
                insert_row(t, count, i, &row);
                count += 1;
            }
        }
    }
    count
}

/// The staged updates become standing entries from the start of the book's free tail.
pub fn write_entries(tail: &mut [u8], number: u32, sender: u8, staged: &[u8]) {
    for (i, body) in staged.chunks_exact(BODY).enumerate() {
        let at = i * ENTRY;
        tail[at] = 2;
        put_number(tail, at + 1, 4, number);
        tail[at + 5] = sender;
        copy_to(tail, at + BODY_AT, body);
    }
}
