//! Numbers as texts, without allocation, as in the toolchain's crate.
const LONGEST: usize = 40;

pub struct Buffer {
    bytes: [u8; LONGEST],
}

/// A number that can be written, by its size and its sign.
pub trait Integer: Copy {
    fn parts(self) -> (u128, bool);
}

macro_rules! integers {
    ($($kind:ty)*) => {$(impl Integer for $kind {
        #[inline]
        #[allow(unused_comparisons)]
        fn parts(self) -> (u128, bool) {
            let is_negative = self < 0;
            let number = self as u128;
            (if is_negative { number.wrapping_neg() } else { number }, is_negative)
        }
    })*};
}

integers!(u8 u16 u32 u64 u128 usize i8 i16 i32 i64 i128 isize);

impl Buffer {
    #[inline]
    pub fn new() -> Buffer {
        Buffer { bytes: [0; LONGEST] }
    }

    #[inline]
    pub fn format<I: Integer>(&mut self, number: I) -> &str {
        let (mut rest, is_negative) = number.parts();
        let mut start = LONGEST;
        while rest > u64::MAX as u128 {
            start -= 1;
            self.bytes[start] = b'0' + (rest % 10) as u8;
            rest /= 10;
        }
        let mut rest = rest as u64;
        loop {
            start -= 1;
            self.bytes[start] = b'0' + (rest % 10) as u8;
            rest /= 10;
            if rest == 0 {
                break;
            }
        }
        if is_negative {
            start -= 1;
            self.bytes[start] = b'-';
        }
        std::str::from_utf8(&self.bytes[start..]).unwrap_or("")
    }
}
