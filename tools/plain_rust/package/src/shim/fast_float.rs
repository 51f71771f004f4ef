//! Numerals without a sign, as the crate `fast_float` reads them. Only whole texts of JSON numbers are read.

pub struct Numeral<'a> {
    text: &'a str,
}

impl<'a> Numeral<'a> {
    pub fn scan(bytes: &'a [u8]) -> Numeral<'a> {
        Numeral { text: str::from_utf8(bytes).unwrap_or("") }
    }

    pub fn to_u64(&self) -> Option<u64> {
        if self.text.starts_with('+') { None } else { self.text.parse().ok() }
    }

    pub fn to_i64(&self, negative: bool) -> Option<i64> {
        let n = i128::from(self.to_u64()?);
        i64::try_from(if negative { -n } else { n }).ok()
    }

    /// The nearest float; infinity where the number is too large.
    pub fn to_float<F: From<f64>>(&self, negative: bool) -> F {
        let x: f64 = self.text.parse().unwrap_or(0.0);
        F::from(if negative { -x } else { x })
    }
}
