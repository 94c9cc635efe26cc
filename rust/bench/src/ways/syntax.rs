//! `syntax`: the form of a dossier, by runs of bytes that are neither below 32 nor a backslash.

/// The kind of a line, or before the first line none. Rows: labels and data.
#[derive(Clone, Copy)]
enum Kind {
    Nothing,
    Group,
    Table,
    Rows,
}

/// A place further on, or the byte that is at fault.
type Reached = Result<usize, usize>;

fn is_loud(x: u8) -> bool {
    (x < 32) | (x == b'\\')
}

/// The first loud byte from i on, or the length: by sixteen, then one by one.
fn quiet_end(d: &[u8], i: usize) -> usize {
    let mut p = i;
    while 16 <= d.len() - p {
        if d[p..p + 16].iter().fold(false, |any, &x| any | is_loud(x)) {
            break;
        }
        p += 16;
    }
    while p < d.len() && !is_loud(d[p]) {
        p += 1;
    }
    p
}

/// From a backslash at j in a field's text; `fresh`: it begins the field.
fn escape_end(d: &[u8], j: usize, fresh: bool) -> Reached {
    match d.get(j + 1) {
        Some(b'i' | b'n' | b'p' | b'r') => Ok(j + 2),
        Some(b'0') if fresh => match d.get(j + 2) {
            Some(b'|' | b'\r') => Ok(j + 2),
            _ => Err(j + 2),
        },
        _ => Err(j + 1),
    }
}

/// From a loud byte at j that is no backslash: CR LF, or a fault.
fn ret_end(d: &[u8], j: usize) -> Reached {
    if d[j] != b'\r' {
        return Err(j);
    }
    if d.get(j + 1) != Some(&b'\n') {
        return Err(j + 1);
    }
    Ok(j + 2)
}

/// From the first field of a line at i, past its CR LF.
fn line_end(d: &[u8], i: usize) -> Reached {
    let (mut p, mut fresh) = (i, true);
    loop {
        let j = quiet_end(d, p);
        if p < j {
            fresh = d[j - 1] == b'|';
        }
        if d.len() <= j {
            return Err(j);
        }
        if d[j] != b'\\' {
            return ret_end(d, j);
        }
        p = escape_end(d, j, fresh)?;
        fresh = false;
    }
}

/// From the start of a line at i, behind a line of kind k, to the line's first field.
fn line_start(k: Kind, d: &[u8], i: usize) -> Result<(Kind, usize), usize> {
    if d[i] != b'\\' {
        return if let Kind::Rows = k { Ok((k, i)) } else { Err(i) };
    }
    match (k, d.get(i + 1)) {
        (_, None) => Err(i + 1),
        (Kind::Nothing, Some(b'G')) => Ok((Kind::Group, i + 2)),
        (Kind::Group | Kind::Rows, Some(b'T')) => Ok((Kind::Table, i + 2)),
        (Kind::Table, Some(b'L')) => Ok((Kind::Rows, i + 2)),
        (Kind::Rows, Some(_)) => Ok((Kind::Rows, i)),
        _ => Err(i + 1),
    }
}

/// The byte at which the dossier faults, if it does.
pub fn check(d: &[u8]) -> Result<(), usize> {
    let (mut k, mut i) = (Kind::Nothing, 0);
    while i < d.len() {
        let (kind, content) = line_start(k, d, i)?;
        k = kind;
        i = line_end(d, content)?;
    }
    match k {
        Kind::Group | Kind::Rows => Ok(()),
        Kind::Nothing | Kind::Table => Err(i),
    }
}
