//! Byte masks over sixty-four bytes at a time. Bit `i` of a mask stands for
//! byte `i`. NEON or SSE2 is used where the build has it switched on, which is
//! the rule on 64-bit processors; elsewhere plain loops do the same.

#[cfg(all(target_arch = "aarch64", target_feature = "neon"))]
mod fast {
    use std::arch::aarch64::*;

    #[inline]
    #[target_feature(enable = "neon")]
    fn load(bytes: &[u8; 64], at: usize) -> uint8x16_t {
        let part: &[u8; 16] = bytes[at..at + 16].try_into().unwrap();
        // SAFETY: reads the sixteen bytes of `part`, at any alignment.
        unsafe { vld1q_u8(part.as_ptr()) }
    }

    /// Each lane keeps the bit of its place in a byte; adding neighbours
    /// three times packs sixty-four lanes into eight bytes.
    #[inline]
    #[target_feature(enable = "neon")]
    fn mask(v: [uint8x16_t; 4]) -> u64 {
        let places = vreinterpretq_u8_u64(vdupq_n_u64(0x8040_2010_0804_0201));
        let a = vpaddq_u8(vandq_u8(v[0], places), vandq_u8(v[1], places));
        let b = vpaddq_u8(vandq_u8(v[2], places), vandq_u8(v[3], places));
        let c = vpaddq_u8(a, b);
        vgetq_lane_u64(vreinterpretq_u64_u8(vpaddq_u8(c, c)), 0)
    }

    #[inline]
    #[target_feature(enable = "neon")]
    pub fn marks64(bytes: &[u8; 64]) -> (u64, u64) {
        let v = [load(bytes, 0), load(bytes, 16), load(bytes, 32), load(bytes, 48)];
        let bars = v.map(|x| vceqq_u8(x, vdupq_n_u8(b'|')));
        let marks = v.map(|x| vorrq_u8(vcltq_u8(x, vdupq_n_u8(32)), vceqq_u8(x, vdupq_n_u8(b'\\'))));
        (mask(bars), mask(marks))
    }

    #[inline]
    #[target_feature(enable = "neon")]
    pub fn ends64(bytes: &[u8; 64]) -> u64 {
        let v = [load(bytes, 0), load(bytes, 16), load(bytes, 32), load(bytes, 48)];
        mask(v.map(|x| vorrq_u8(vceqq_u8(x, vdupq_n_u8(b'|')), vceqq_u8(x, vdupq_n_u8(b'\r')))))
    }
}

#[cfg(all(target_arch = "x86_64", target_feature = "sse2"))]
mod fast {
    use std::arch::x86_64::*;

    #[inline]
    #[target_feature(enable = "sse2")]
    fn load(bytes: &[u8; 64], at: usize) -> __m128i {
        let part: &[u8; 16] = bytes[at..at + 16].try_into().unwrap();
        // SAFETY: reads the sixteen bytes of `part`, at any alignment.
        unsafe { _mm_loadu_si128(part.as_ptr().cast()) }
    }

    #[inline]
    #[target_feature(enable = "sse2")]
    pub fn marks64(bytes: &[u8; 64]) -> (u64, u64) {
        let (mut bars, mut marks) = (0, 0);
        for at in [0, 16, 32, 48] {
            let v = load(bytes, at);
            let low = _mm_cmpeq_epi8(_mm_min_epu8(v, _mm_set1_epi8(31)), v);
            let mark = _mm_or_si128(low, _mm_cmpeq_epi8(v, _mm_set1_epi8(b'\\' as i8)));
            let bar = _mm_cmpeq_epi8(v, _mm_set1_epi8(b'|' as i8));
            bars |= (_mm_movemask_epi8(bar) as u32 as u64) << at;
            marks |= (_mm_movemask_epi8(mark) as u32 as u64) << at;
        }
        (bars, marks)
    }

    #[inline]
    #[target_feature(enable = "sse2")]
    pub fn ends64(bytes: &[u8; 64]) -> u64 {
        let mut ends = 0;
        for at in [0, 16, 32, 48] {
            let v = load(bytes, at);
            let bar = _mm_cmpeq_epi8(v, _mm_set1_epi8(b'|' as i8));
            let end = _mm_or_si128(bar, _mm_cmpeq_epi8(v, _mm_set1_epi8(b'\r' as i8)));
            ends |= (_mm_movemask_epi8(end) as u32 as u64) << at;
        }
        ends
    }
}

#[cfg(any(
    test,
    not(any(
        all(target_arch = "aarch64", target_feature = "neon"),
        all(target_arch = "x86_64", target_feature = "sse2")
    ))
))]
mod plain {
    fn mask(bytes: &[u8; 64], f: impl Fn(u8) -> bool) -> u64 {
        bytes.iter().enumerate().fold(0, |m, (i, &b)| m | (f(b) as u64) << i)
    }

    pub fn marks64(bytes: &[u8; 64]) -> (u64, u64) {
        (mask(bytes, |b| b == b'|'), mask(bytes, |b| b < 32 || b == b'\\'))
    }

    pub fn ends64(bytes: &[u8; 64]) -> u64 {
        mask(bytes, |b| b == b'|' || b == b'\r')
    }
}

/// Which bytes of a body belong to texts, are a text's first, or are followed
/// by a byte of the same text: 255 where so, else 0.
pub struct Masks {
    pub text: [u8; 64],
    pub first: [u8; 64],
    pub inner: [u8; 64],
}

// SAFETY: the feature that `fast` asks for is on for the whole build,
// or this module would not be compiled.
#[cfg(any(
    all(target_arch = "aarch64", target_feature = "neon"),
    all(target_arch = "x86_64", target_feature = "sse2")
))]
mod chosen {
    use super::fast;

    #[inline(always)]
    pub fn marks64(bytes: &[u8; 64]) -> (u64, u64) {
        unsafe { fast::marks64(bytes) }
    }

    #[inline(always)]
    pub fn ends64(bytes: &[u8; 64]) -> u64 {
        unsafe { fast::ends64(bytes) }
    }
}
#[cfg(not(any(
    all(target_arch = "aarch64", target_feature = "neon"),
    all(target_arch = "x86_64", target_feature = "sse2")
)))]
use plain as chosen;

/// (bars, bytes that are below 32 or a backslash).
#[inline(always)]
pub fn marks64(bytes: &[u8; 64]) -> (u64, u64) {
    chosen::marks64(bytes)
}

/// Bars and CRs: in a well-formed line, the ends of its fields.
#[inline(always)]
pub fn ends64(bytes: &[u8; 64]) -> u64 {
    chosen::ends64(bytes)
}

/// Not 0 if a padded text breaks its form: a byte that is not in 32 to 126 has
/// to be zero, not the first, and followed by zero. Without a way out of the
/// loop: the compiler makes vector instructions of it, and better ones than
/// were written by hand.
#[inline(always)]
pub fn text_faults(body: &[u8; 65], masks: &Masks) -> u8 {
    let fault = |i: usize| {
        let bad = !(32..=126).contains(&body[i]) as u8 * 255;
        bad & (body[i] & masks.text[i] | masks.first[i] | body[i + 1] & masks.inner[i])
    };
    (0..64).fold(0, |faults, i| faults | fault(i))
}

#[cfg(test)]
mod tests {
    use super::*;

    #[test]
    fn lanes_agree_with_plain_loops() {
        for b in 0..=255u8 {
            let mut block = [b'a'; 64];
            for at in 0..64 {
                block[at] = b;
                assert_eq!(marks64(&block), plain::marks64(&block));
                assert_eq!(ends64(&block), plain::ends64(&block));
                block[at] = [b'|', b'\\', b'\r', b'x'][at % 4];
            }
        }
    }

    #[test]
    fn text_faults_are_those_of_a_padded_text() {
        let mut masks = Masks { text: [0; 64], first: [0; 64], inner: [0; 64] };
        masks.text[7..17].fill(255);
        masks.inner[7..16].fill(255);
        masks.first[7] = 255;
        for b in 0..=255u8 {
            for at in 0..65 {
                let mut body = [0; 65];
                body[7..12].fill(b'~');
                body[at] = b;
                let wrong = text_faults(&body, &masks) != 0;
                let text = &body[7..17];
                let end = text.iter().position(|&b| b == 0).unwrap_or(10);
                let fine =
                    end > 0 && text[..end].iter().all(|b| (32..127).contains(b)) && text[end..].iter().all(|&b| b == 0);
                assert_eq!(wrong, !fine, "{b} at {at}");
            }
        }
    }
}
