//! The types of a dossier's fields. Every reader works on whole words of the
//! dossier where it can; the dossier's form has been checked before.

use super::dates;
use super::passage::{MISSING, TEXT};

/// One field of a dossier: the part from `start` to before `end`.
#[derive(Clone, Copy)]
pub struct Field<'a> {
    all: &'a [u8],
    start: usize,
    end: usize,
}

const ONES: u64 = 0x0101_0101_0101_0101;
const TOPS: u64 = 0x80 * ONES;

/// By length: the bytes of a word that belong to the field. A table, since
/// shifting a long number by a variable takes more.
static KEEP: [u128; 17] = {
    let mut keep = [0; 17];
    let mut len = 1;
    while len <= 16 {
        keep[len] = u128::MAX >> (128 - 8 * len);
        len += 1;
    }
    keep
};

impl<'a> Field<'a> {
    #[inline(always)]
    pub fn new(all: &'a [u8], start: usize, end: usize) -> Self {
        Field { all, start, end }
    }

    #[inline(always)]
    fn len(self) -> usize {
        self.end - self.start
    }

    fn bytes(self) -> &'a [u8] {
        &self.all[self.start..self.end]
    }

    /// The first sixteen bytes, with zeros behind the field's end.
    #[inline(always)]
    fn word16(self) -> u128 {
        let len = self.len();
        let whole = match self.all.get(self.start..self.start + 16) {
            Some(chunk) => u128::from_le_bytes(chunk.try_into().unwrap()),
            None => self.word_at_end(),
        };
        whole & KEEP[len.min(16)]
    }

    /// The same for a field near the dossier's end, where a load would not fit.
    #[cold]
    fn word_at_end(self) -> u128 {
        let mut chunk = [0; 16];
        let part = &self.all[self.start..];
        chunk[..part.len()].copy_from_slice(part);
        u128::from_le_bytes(chunk)
    }

    /// The first eight bytes, with zeros behind the field's end.
    #[inline(always)]
    fn word8(self) -> u64 {
        let len = self.len();
        let whole = match self.all.get(self.start..self.start + 8) {
            Some(chunk) => u64::from_le_bytes(chunk.try_into().unwrap()),
            None => self.word_at_end() as u64,
        };
        whole & KEEP[len.min(8)] as u64
    }

    #[inline(always)]
    fn part(self, from: usize, to: usize) -> Field<'a> {
        Field { all: self.all, start: self.start + from, end: self.start + to }
    }

    /// The field is `\0`.
    #[inline(always)]
    pub fn is_nothing(self) -> bool {
        self.len() == 2 && self.word8() == u16::from_le_bytes(*b"\\0") as u64
    }

    /// A kept text, decoded and padded with zeros.
    #[inline(always)]
    pub fn text(self) -> Option<[u8; TEXT]> {
        let len = self.len();
        if len == 0 || len > TEXT {
            return self.long_text();
        }
        let word = self.word16();
        if plain(word as u64) && plain((word >> 64) as u64) {
            Some(word.to_le_bytes()[..TEXT].try_into().unwrap())
        } else {
            self.long_text()
        }
    }

    /// Byte by byte: texts with escapes, and all that are refused.
    #[cold]
    fn long_text(self) -> Option<[u8; TEXT]> {
        let (mut text, mut count) = ([0; TEXT], 0);
        let mut bytes = self.bytes().iter();
        while let Some(&b) = bytes.next() {
            let decoded = match b {
                b'\\' => match bytes.next()? {
                    b'i' => b'\\',
                    b'p' => b'|',
                    _ => return None,
                },
                32..=126 => b,
                _ => return None,
            };
            *text.get_mut(count)? = decoded;
            count += 1;
        }
        (count > 0).then_some(text)
    }

    /// N#: one to `digits` (at most 7) digits.
    #[inline(always)]
    pub fn number(self, digits: usize) -> Option<u32> {
        let len = self.len();
        if len == 0 || len > digits || len > 7 {
            return None;
        }
        let shifted = self.word8() << (64 - 8 * len);
        eight_digits(shifted | (0x30 * ONES) >> (8 * len))
    }

    /// B.
    #[inline(always)]
    pub fn flag(self) -> Option<u8> {
        match (self.len(), self.word8() as u8) {
            (1, b'0') => Some(0),
            (1, b'1') => Some(1),
            _ => None,
        }
    }

    /// D, as YYYYMMDD.
    #[inline(always)]
    pub fn date(self) -> Option<u32> {
        if self.len() != 10 {
            return None;
        }
        let word = self.word16();
        let front = word as u64;
        if front & 0xff00_00ff_0000_0000 != 0x2d00_002d_0000_0000 {
            return None;
        }
        let month = (front >> 40 & 0xffff) << 32;
        let day = ((word >> 64) as u64) << 48;
        let date = eight_digits(front & 0xffff_ffff | month | day)?;
        dates::is_date(date).then_some(date)
    }

    /// T, as seconds.
    #[inline(always)]
    pub fn time(self) -> Option<u32> {
        if self.len() != 8 {
            return None;
        }
        clock(self.word8(), 31)
    }

    /// T, or `\0` where that is allowed.
    #[inline(always)]
    pub fn time_or_nothing(self, may_miss: bool) -> Option<u32> {
        match self.time() {
            None if may_miss && self.is_nothing() => Some(MISSING),
            time => time,
        }
    }

    /// U, as seconds since 1970-01-01 UTC.
    #[inline(always)]
    pub fn stamp(self) -> Option<u32> {
        if self.len() != 25 {
            return None;
        }
        let date = self.part(0, 10).date()?;
        let time = clock(self.part(11, 19).word8(), 23)?;
        // The last six bytes: sign, hours, colon, minutes.
        let zone = self.part(19, 25).word8();
        let offset = zone_seconds(zone >> 8)?;
        if self.all[self.start + 10] != b'T' {
            return None;
        }
        let local = dates::SECONDS_TO_2000 + dates::days(date) * dates::DAY + time;
        match zone as u8 {
            b'+' => Some(local - offset),
            b'-' => Some(local + offset),
            _ => None,
        }
    }

    /// Status words, coded 0 to 5.
    #[inline(always)]
    pub fn status(self) -> Option<u8> {
        if self.len() > 8 {
            return None;
        }
        const PLANNED: u64 = u64::from_le_bytes(*b"PLANNED\0");
        const CANCEL: u64 = u64::from_le_bytes(*b"CANCEL\0\0");
        const UNKNOWN: u64 = u64::from_le_bytes(*b"UNKNOWN\0");
        const DRIVING: u64 = u64::from_le_bytes(*b"DRIVING\0");
        const ARRIVED: u64 = u64::from_le_bytes(*b"ARRIVED\0");
        const PASSED: u64 = u64::from_le_bytes(*b"PASSED\0\0");
        match self.word8() {
            PLANNED => Some(0),
            CANCEL => Some(1),
            UNKNOWN => Some(2),
            DRIVING => Some(3),
            ARRIVED => Some(4),
            PASSED => Some(5),
            _ => None,
        }
    }

    /// JourneyStopType.
    #[inline(always)]
    pub fn stop_type(self) -> Option<u8> {
        if self.len() > 16 {
            return None;
        }
        const FIRST: u128 = u128::from_le_bytes(*b"FIRST\0\0\0\0\0\0\0\0\0\0\0");
        const INTERMEDIATE: u128 = u128::from_le_bytes(*b"INTERMEDIATE\0\0\0\0");
        const LAST: u128 = u128::from_le_bytes(*b"LAST\0\0\0\0\0\0\0\0\0\0\0\0");
        match self.word16() {
            FIRST => Some(0),
            INTERMEDIATE => Some(1),
            LAST => Some(2),
            _ => None,
        }
    }

    /// true or false, in the 8.5 form.
    #[inline(always)]
    pub fn truth(self) -> Option<u8> {
        self.shown().filter(|&shown| shown <= 1)
    }

    /// ShowCancelledJourney, in the 8.5 form.
    #[inline(always)]
    pub fn shown(self) -> Option<u8> {
        if self.len() > 8 {
            return None;
        }
        const FALSE: u64 = u64::from_le_bytes(*b"false\0\0\0");
        const TRUE: u64 = u64::from_le_bytes(*b"true\0\0\0\0");
        const MESSAGE: u64 = u64::from_le_bytes(*b"message\0");
        match self.word8() {
            FALSE => Some(0),
            TRUE => Some(1),
            MESSAGE => Some(2),
            _ => None,
        }
    }

    /// ShowFlexibleTrip.
    #[inline(always)]
    pub fn flexible(self) -> Option<u8> {
        if self.len() > 8 {
            return None;
        }
        const TRUE: u64 = u64::from_le_bytes(*b"TRUE\0\0\0\0");
        const FALSE: u64 = u64::from_le_bytes(*b"FALSE\0\0\0");
        const REALTIME: u64 = u64::from_le_bytes(*b"REALTIME");
        match self.word8() {
            TRUE => Some(1),
            FALSE => Some(2),
            REALTIME => Some(3),
            _ => None,
        }
    }
}

/// Eight bytes of a checked dossier that need no decoding: none above 126, no
/// backslash. Bytes below 32 cannot occur; zeros are padding.
#[inline(always)]
fn plain(word: u64) -> bool {
    let slash = word ^ (0x5c * ONES);
    let outside = word | word.wrapping_add(ONES);
    !outside & slash.wrapping_add(0x7f * ONES) & TOPS == TOPS
}

/// Eight ASCII digits, the first in the lowest byte.
#[inline(always)]
fn eight_digits(word: u64) -> Option<u32> {
    let x = word ^ (0x30 * ONES);
    if (x | x.wrapping_add(0x76 * ONES)) & TOPS != 0 {
        return None;
    }
    let pairs = x * 10 + (x >> 8);
    let high = (pairs & 0x0000_00ff_0000_00ff).wrapping_mul(0x000f_4240_0000_0064);
    let low = (pairs >> 16 & 0x0000_00ff_0000_00ff).wrapping_mul(0x0000_2710_0000_0001);
    Some((high.wrapping_add(low) >> 32) as u32)
}

/// `HH:MM:SS`, hours up to a limit, as seconds.
#[inline(always)]
fn clock(word: u64, last_hour: u32) -> Option<u32> {
    let x = word ^ u64::from_le_bytes(*b"00:00:00");
    let room = u64::from_le_bytes([0x7c, 0x76, 0x7f, 0x7a, 0x76, 0x7f, 0x7a, 0x76]);
    if (x | x.wrapping_add(room)) & TOPS != 0 {
        return None;
    }
    let pair = |at: u32| (x >> at & 0xff) as u32 * 10 + (x >> (at + 8) & 0xff) as u32;
    let hours = pair(0);
    (hours <= last_hour).then(|| hours * 3600 + pair(24) * 60 + pair(48))
}

/// `HH:MM` up to 14:00, as seconds.
#[inline(always)]
fn zone_seconds(word: u64) -> Option<u32> {
    let x = word ^ u64::from_le_bytes(*b"00:00\0\0\0");
    let room = u64::from_le_bytes([0x7e, 0x76, 0x7f, 0x7a, 0x76, 0x7f, 0x7f, 0x7f]);
    if (x | x.wrapping_add(room)) & TOPS != 0 {
        return None;
    }
    let pair = |at: u32| (x >> at & 0xff) as u32 * 10 + (x >> (at + 8) & 0xff) as u32;
    let minutes = pair(0) * 60 + pair(24);
    (minutes <= 840).then_some(minutes * 60)
}

#[cfg(test)]
mod tests {
    use super::*;

    /// Reads a field in the middle of a line and at the very end alike.
    fn each<T: PartialEq + std::fmt::Debug>(raw: &[u8], read: impl Fn(Field) -> T) -> T {
        let mut middle = b"xxxxxxxxxx|".to_vec();
        middle.extend_from_slice(raw);
        let (start, end) = (11, 11 + raw.len());
        let at_end = middle.clone();
        middle.extend_from_slice(b"|0123456789012345678901234567890123456789");
        let a = read(Field::new(&middle, start, end));
        let b = read(Field::new(&at_end, start, end));
        assert_eq!(a, b, "{raw:?}");
        a
    }

    fn text(raw: &[u8]) -> Option<Vec<u8>> {
        each(raw, |f| f.text()).map(|t| t.iter().copied().filter(|&b| b != 0).collect())
    }

    #[test]
    fn texts() {
        assert_eq!(text(b"a\\pb\\i").unwrap(), b"a|b\\");
        assert_eq!(text(b"A").unwrap(), b"A");
        assert_eq!(text(b"0123456789").unwrap(), b"0123456789");
        assert_eq!(text(b"~ ~").unwrap(), b"~ ~");
        assert_eq!(text(b" ").unwrap(), b" ");
        assert_eq!(text(b"\\p\\p\\p\\p\\p\\p\\p\\p\\p\\i").unwrap(), b"|||||||||\\");
        assert_eq!(text(b"\\p\\p\\p\\p\\p\\p\\p\\p\\p\\i1"), None);
        for bad in [&b""[..], b"01234567890", b"\\0", b"a\\r", b"\\nb", b"a\x7f", b"\xc3\xa9", b"0123456789\\p"] {
            assert_eq!(text(bad), None, "{bad:?}");
        }
        // Every byte at every place of every length.
        for len in 1..=10 {
            for at in 0..len {
                for b in 32..=255u8 {
                    let mut raw = vec![b'm'; len];
                    raw[at] = b;
                    if b != b'\\' && b != b'|' {
                        assert_eq!(text(&raw).is_some(), b <= 126, "{raw:?}");
                    }
                }
            }
        }
    }

    #[test]
    fn numbers() {
        let n = |raw: &[u8], digits| each(raw, |f| f.number(digits));
        assert_eq!(n(b"0", 2), Some(0));
        assert_eq!(n(b"999999", 6), Some(999_999));
        assert_eq!(n(b"007", 3), Some(7));
        assert_eq!(n(b"12345", 6), Some(12345));
        for bad in [&b""[..], b"0000001", b"-1", b"+1", b"1 ", b" 1", b"1a", b"\\0", b"\xb1", b"/", b":"] {
            assert_eq!(n(bad, 6), None, "{bad:?}");
        }
        assert_eq!(n(b"100", 2), None);
        for i in 0..1_000_000u32 {
            if i < 1000 || i % 977 == 0 {
                assert_eq!(n(i.to_string().as_bytes(), 6), Some(i));
                assert_eq!(n(format!("{i:06}").as_bytes(), 6), Some(i));
            }
        }
        let f = |raw: &[u8]| each(raw, |f| f.flag());
        assert_eq!(
            (f(b"0"), f(b"1"), f(b"2"), f(b""), f(b"00"), f(b"\\0")),
            (Some(0), Some(1), None, None, None, None)
        );
    }

    #[test]
    fn words_of_the_new_form() {
        let both = |raw: &[u8]| (each(raw, |f| f.truth()), each(raw, |f| f.shown()));
        assert_eq!(both(b"false"), (Some(0), Some(0)));
        assert_eq!(both(b"true"), (Some(1), Some(1)));
        assert_eq!(both(b"message"), (None, Some(2)));
        for bad in
            ["", "0", "1", "2", "TRUE", "True", "tru", "true ", " true", "falsetrue", "messages", "MESSAGE", "\\0"]
        {
            assert_eq!(both(bad.as_bytes()), (None, None), "{bad}");
        }
    }

    #[test]
    fn dates_and_times() {
        let d = |raw: &[u8]| each(raw, |f| f.date());
        assert_eq!(d(b"2000-02-29"), Some(20000229));
        assert_eq!(d(b"2099-12-31"), Some(20991231));
        for bad in [
            "2023-02-29",
            "1999-12-31",
            "2100-01-01",
            "2016-13-01",
            "2016-00-01",
            "2016-01-00",
            "2016-04-31",
            "2016/01/01",
            "2016-1-01",
            "20160101",
            "",
            "2016-01-0a",
            "2016-01-011",
            "\\0",
        ] {
            assert_eq!(d(bad.as_bytes()), None, "{bad}");
        }
        let t = |raw: &str| each(raw.as_bytes(), |f| f.time());
        assert_eq!(t("31:59:59"), Some(115_199));
        assert_eq!(t("32:00:00"), None);
        for bad in
            ["", "1:00:00", "00:60:00", "00:00:60", "00-00:00", "00:00:0a", "40:00:00", "3a:00:00", "00:00:000", "\\0"]
        {
            assert_eq!(t(bad), None, "{bad}");
        }
        for s in (0..115_200).step_by(7) {
            assert_eq!(t(&format!("{:02}:{:02}:{:02}", s / 3600, s / 60 % 60, s % 60)), Some(s));
        }
        assert_eq!(each(b"\\0", |f| f.time_or_nothing(true)), Some(MISSING));
        assert_eq!(each(b"\\0", |f| f.time_or_nothing(false)), None);
        assert_eq!(each(b"\\i", |f| f.time_or_nothing(true)), None);
    }

    #[test]
    fn stamps() {
        let u = |raw: &str| each(raw.as_bytes(), |f| f.stamp());
        assert_eq!(u("2016-03-01T15:15:30+01:00"), Some(1_456_841_730));
        assert_eq!(u("2000-01-01T00:00:00+14:00"), Some(946_634_400));
        assert_eq!(u("2099-12-31T23:59:59-14:00"), Some(4_102_495_199));
        assert_eq!(u("2000-01-01T00:00:00-00:00"), u("2000-01-01T00:00:00+00:00"));
        for bad in [
            "2016-03-01T15:15:30Z",
            "2016-03-01T15:15:30+14:01",
            "2016-03-01T24:00:00+01:00",
            "2016-03-01t15:15:30+01:00",
            "2016-03-01 15:15:30+01:00",
            "2016-03-01T15:60:30+01:00",
            "2016-03-01T15:15:60+01:00",
            "2016-03-01T15:15:30+01:60",
            "2016-03-01T15:15:30 01:00",
            "2016-03-01T15:15:30+15:00",
            "2016-03-01T15:15:30+0100",
            "2016-02-30T15:15:30+01:00",
            "2016-03-01T15:15:30+01-00",
            "",
            "\\0",
            "2016-03-01T15:15:30+01:000",
            "2016-03-01T15:15:30+20:00",
        ] {
            assert_eq!(u(bad), None, "{bad}");
        }
    }

    #[test]
    fn words() {
        let s = |raw: &str| each(raw.as_bytes(), |f| f.status());
        for (code, word) in ["PLANNED", "CANCEL", "UNKNOWN", "DRIVING", "ARRIVED", "PASSED"].iter().enumerate() {
            assert_eq!(s(word), Some(code as u8));
        }
        for bad in ["PLAN", "planned", "PLANNED ", "", "\\0", "CANCELLED", "PLANNEDX"] {
            assert_eq!(s(bad), None, "{bad}");
        }
        let j = |raw: &str| each(raw.as_bytes(), |f| f.stop_type());
        assert_eq!((j("FIRST"), j("INTERMEDIATE"), j("LAST")), (Some(0), Some(1), Some(2)));
        for bad in ["", "first", "INTERMEDIATE ", "INTERMEDIAT", "LASTLASTLASTLASTLAST", "\\0"] {
            assert_eq!(j(bad), None, "{bad}");
        }
        let x = |raw: &str| each(raw.as_bytes(), |f| f.flexible());
        assert_eq!((x("TRUE"), x("FALSE"), x("REALTIME")), (Some(1), Some(2), Some(3)));
        for bad in ["", "true", "REALTIMES", "FALS", "\\0"] {
            assert_eq!(x(bad), None, "{bad}");
        }
    }
}
