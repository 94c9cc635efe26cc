//! Fixed cases at the borders of the scope's rules. Each is run against every side of a panel: they must agree, and say what stands
//! here.

pub mod boards;
pub mod feeds;
pub mod fields;
pub mod forms;
pub mod refusals;
pub mod rows;
pub mod sizes;
pub mod sound;

use crate::panel::listed;

listed! {
    boards: show_rule, horizon, question, question_dates, months, order, full_table;
    feeds: cuts, end_causes, staging, sizes, tampered, register, again, memory;
    fields: texts, numbers, words, times, no_content, absent, months, stamps, one_byte, every_day;
    forms: words, one_byte, names, unknown, on_a_day, cuts;
    refusals: message_causes, open_causes, withdraw_causes, owners, forms, first_field, syntax, far_faults, far_lines, joins, joined;
    rows: status, optionals, new_rows, close, disagreeing, entries;
    sizes: dossier, long_lines, register, full_book, book_room, table_room, counts, open_room, most_lines, many_columns, areas, many_messages,
        withdrawal_room;
    sound: numbers, dates, times, codes, texts, one_byte, rising, messages, lent_only;
}
