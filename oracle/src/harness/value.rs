//! Results compared bit for bit, all NaNs alike.

/// A result.
pub trait Value: Copy {
    /// The bits, the same for all NaNs.
    fn compared_bits(self) -> u64;

    /// How it is shown: a float by its bits.
    fn shown(self) -> String {
        format!("{:#x}", self.compared_bits())
    }
}

// What stands for every NaN is a whole number, not `f64::NAN`: the compiler may put any NaN in the
// place of another.

impl Value for f64 {
    fn compared_bits(self) -> u64 {
        const NAN: u64 = 0x7ff8_0000_0000_0000;
        if self.is_nan() { NAN } else { self.to_bits() }
    }
}

impl Value for f32 {
    fn compared_bits(self) -> u64 {
        const NAN: u32 = 0x7fc0_0000;
        let bits = if self.is_nan() { NAN } else { self.to_bits() };
        u64::from(bits)
    }
}

impl Value for i32 {
    fn compared_bits(self) -> u64 {
        u64::from(self.cast_unsigned())
    }

    fn shown(self) -> String {
        self.to_string()
    }
}
