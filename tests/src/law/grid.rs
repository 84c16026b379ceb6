//! The grid number of a float (rules 1.9 and 1.10), from the exact value of its bits.

#[derive(Clone, Copy, Debug, PartialEq, Eq)]
pub enum GridNumber {
    At(i64),
    NotFinite,
    OutOfRange,
}

/// The whole number nearest to 8v, at a half the even one. The range is tested before rounding.
pub fn grid_number(bits: u32) -> GridNumber {
    let exponent = (bits >> 23 & 255) as i32;
    let fraction = bits & 0x7f_ffff;
    if exponent == 255 {
        return GridNumber::NotFinite;
    }
    // |v| is significand * 2^power, so 8|v| has three more in the power.
    let (significand, power) = match exponent {
        0 => (fraction, -149),
        _ => (fraction + 0x80_0000, exponent - 150),
    };
    let below_point = -(power + 3);
    if below_point <= 0 {
        // The significand is at least 2^23 here.
        return GridNumber::OutOfRange;
    }
    if below_point > 64 {
        // The significand is below 2^24, so 8|v| is far below a half.
        return GridNumber::At(0);
    }
    let significand = significand as u128;
    let one = 1u128 << below_point;
    if significand > 1000 * one {
        return GridNumber::OutOfRange;
    }
    let whole = (significand / one) as i64;
    let twice_rest = significand % one * 2;
    let up = twice_rest > one || (twice_rest == one && whole % 2 == 1);
    let size = if up { whole + 1 } else { whole };
    GridNumber::At(if bits >> 31 == 1 { -size } else { size })
}
