//! The layout has every number of the C header, and no other.

use std::collections::BTreeMap;

/// The numbers of the header by name, without `DESK_`: from lines like `DESK_ROW = 67,` and `{ DESK_SENDER = 0 }`.
fn header() -> BTreeMap<String, u64> {
    let path = concat!(env!("CARGO_MANIFEST_DIR"), "/../../include/desk.h");
    let text = std::fs::read_to_string(path).expect("the header");
    let mut numbers = BTreeMap::new();
    for part in text.split("DESK_").skip(1) {
        if let Some((name, rest)) = part.split_once(" = ") {
            let value = rest.split([',', '}', '/', '\n']).next().unwrap_or("");
            let product = value.split('*').map(|word| word.trim().parse::<u64>());
            if let (true, Ok(factors)) =
                (name.chars().all(|c| c.is_ascii_uppercase() || c == '_'), product.collect::<Result<Vec<_>, _>>())
            {
                numbers.insert(name.to_string(), factors.iter().product());
            }
        }
    }
    numbers
}

#[test]
fn the_layout_is_the_header_s() {
    let constants = layout::NAMED.iter().map(|&(name, value)| (name, value));
    let refusals = layout::REFUSALS.iter().map(|form| (form.name, u64::from(form.number)));
    let ours: BTreeMap<String, u64> =
        constants.chain(refusals).map(|(name, value)| (name.to_string(), value)).collect();
    assert_eq!(ours.len(), layout::NAMED.len() + layout::REFUSALS.len(), "a name stands once");
    assert_eq!(ours, header());
    assert!(ours.len() > 70);
}
