//! Stands in for ordered_float: the functions that float.rs names.

/// `cox` calls the root and the cosine of an f64; the rest is there to be named.
pub trait Float: Sized {
    fn sqrt(self) -> Self {
        unreachable!()
    }

    fn abs(self) -> Self {
        unreachable!()
    }

    fn sin(self) -> Self {
        unreachable!()
    }

    fn cos(self) -> Self {
        unreachable!()
    }

    fn sin_cos(self) -> (Self, Self) {
        unreachable!()
    }
}

impl Float for f32 {}

impl Float for f64 {
    /// The machine's root is the nearest double, which is what document 01 asks for.
    fn sqrt(self) -> f64 {
        self.sqrt()
    }

    /// Document 01's stand-in: h = 1 − (t ÷ (2k−1)(2k))×h for k from 13 down to 1. The machine's own differs
    /// between libraries.
    fn cos(self) -> f64 {
        let t = self * self;
        let mut h = 1.0;
        for k in (1..=13_u32).rev() {
            h = 1.0 - (t / f64::from((2 * k - 1) * (2 * k))) * h;
        }
        h
    }
}
