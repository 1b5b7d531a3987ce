//! Numbers by their bits: how they are written, stepped and compared.

/// The one NaN that is written.
pub const NAN_BITS: u64 = 0x7ff8_0000_0000_0000;

/// The bits as 16 upper-case hex digits.
pub fn hex(x: f64) -> String {
    format!("{:016X}", x.to_bits())
}

/// The bits of an answer: every NaN is written alike.
pub fn answer_bits(x: f64) -> u64 {
    if x.is_nan() {
        NAN_BITS
    } else {
        x.to_bits()
    }
}

/// Equal bit for bit, any NaN being equal to any NaN.
pub fn alike(a: f64, b: f64) -> bool {
    answer_bits(a) == answer_bits(b)
}

/// `x` moved by whole doubles, up or down.
pub fn moved(x: f64, steps: i64) -> f64 {
    let step = if steps < 0 { f64::next_down } else { f64::next_up };
    (0..steps.unsigned_abs()).fold(x, |y, _| step(y))
}

/// How plain a number is: the plainest failing input is the one that is shown.
pub fn cost(x: f64) -> u64 {
    let bits = x.to_bits();
    let digits = 64 - u64::from((bits << 12).trailing_zeros());
    let exponent = match (bits >> 52) & 0x7ff {
        0 => digits,
        0x7ff => 2,
        e => 1 + e.abs_diff(1023),
    };
    2 * (digits + exponent) + (bits >> 63)
}

/// The plainness of a list of numbers.
pub fn cost_of(numbers: &[f64]) -> u64 {
    numbers.iter().map(|x| cost(*x)).sum()
}

/// Values at which arithmetic and comparisons turn.
pub const SPECIAL: [u64; 62] = [
    0x0000_0000_0000_0000, // 0
    0x8000_0000_0000_0000, // -0
    0x0000_0000_0000_0001, // the least subnormal
    0x8000_0000_0000_0001,
    0x0000_0000_0000_0002,
    0x000f_ffff_ffff_ffff, // the greatest subnormal
    0x800f_ffff_ffff_ffff,
    0x0010_0000_0000_0000, // the least normal
    0x0010_0000_0000_0001,
    0x0020_0000_0000_0000,
    0x1a70_0000_0000_0000, // 2^-600
    0x1e30_0000_0000_0000, // 2^-540
    0x1e50_0000_0000_0000, // 2^-538, whose square computes to 0
    0x1e60_0000_0000_0000, // 2^-537, whose square is the least subnormal
    0x2000_0000_0000_0000, // 2^-511, whose square is the least normal
    0x3c98_0000_0000_0000, // 3 * 2^-55
    0xbc98_0000_0000_0000, // -3 * 2^-55: span to 1 takes a step
    0xbcc5_0000_0000_0000, // a corner on which a split takes a step
    0x3ca0_0000_0000_0000, // 2^-53
    0xbca0_0000_0000_0000,
    0x3cb0_0000_0000_0000, // 2^-52
    0x3fb9_9999_9999_999a, // 0.1
    0xbfb9_9999_9999_999a,
    0x3fd5_5555_5555_5555, // 1/3
    0x3fe0_0000_0000_0000, // 1/2
    0xbfe0_0000_0000_0000,
    0x3fef_ffff_ffff_ffff, // 1 less one step
    0x3ff0_0000_0000_0000, // 1
    0xbff0_0000_0000_0000,
    0x3ff0_0000_0000_0001, // 1 and one step
    0xbff0_0000_0000_0001,
    0x3ff0_0000_0000_0002,
    0x3ff8_0000_0000_0000, // 1.5
    0x4000_0000_0000_0000, // 2
    0x4000_0000_0000_0001, // the extent that goes with that corner
    0xc000_0000_0000_0000,
    0x4008_0000_0000_0000, // 3
    0x4010_0000_0000_0000, // 4
    0x4020_0000_0000_0000, // 8
    0xc020_0000_0000_0000,
    0x4021_0000_0000_0000, // 8.5
    0x4330_0000_0000_0000, // 2^52
    0x4340_0000_0000_0000, // 2^53
    0x4340_0000_0000_0001,
    0x5f20_0000_0000_0000, // 2^499
    0x5f2f_ffff_ffff_ffff, // 2^500 less one step
    0x5f30_0000_0000_0000, // 2^500
    0x5f30_0000_0000_0001, // 2^500 and one step
    0xdf30_0000_0000_0000,
    0xdf30_0000_0000_0001,
    0x5ff0_0000_0000_0000, // 2^512, whose square is infinite
    0x7fe0_0000_0000_0000, // 2^1023
    0x7fef_ffff_ffff_ffff, // the greatest finite
    0xffef_ffff_ffff_ffff,
    0x7ff0_0000_0000_0000, // infinity
    0xfff0_0000_0000_0000,
    0x7ff8_0000_0000_0000, // NaN
    0xfff8_0000_0000_0000,
    0x7ff0_0000_0000_0001, // NaNs of other payloads
    0xfff0_0000_0000_0001,
    0x7fff_ffff_ffff_ffff,
    0xffff_ffff_ffff_ffff,
];

/// The special value of this number, counted round.
pub fn special(number: u64) -> f64 {
    f64::from_bits(SPECIAL[(number % SPECIAL.len() as u64) as usize])
}
