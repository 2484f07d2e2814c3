//! (x + y) × 0.5 of two doubles in whole numbers, as IEEE 754 rounds each operation: to the nearest, and of two that are
//! equally near to the one whose last bit is 0.

/// A finite double: a whole number times a power of 2, and a sign, which 0 has too.
#[derive(Clone, Copy)]
struct Finite {
    negative: bool,
    whole: u128,
    power: i32,
}

const LEAST_POWER: i32 = -1074;
const BITS: i32 = 53;
/// The powers of two numbers that are further apart leave the lesser number below half of the greater one's last bit.
const FAR: i32 = 66;

/// None for infinities and what is no number.
fn finite(x: f64) -> Option<Finite> {
    let bits = x.to_bits();
    let (exponent, fraction) = ((bits >> 52 & 0x7FF) as i32, u128::from(bits & ((1 << 52) - 1)));
    let (whole, power) = match exponent {
        0x7FF => return None,
        0 => (fraction, LEAST_POWER),
        _ => (fraction | 1 << 52, exponent - 1075),
    };
    Some(Finite { negative: bits >> 63 == 1, whole, power })
}

/// The last `count` bits go.
fn without_bits(whole: u128, count: u32) -> u128 {
    let (kept, half) = (whole >> count, 1 << (count - 1));
    let gone = whole - (kept << count);
    kept + u128::from(gone > half || gone == half && kept % 2 == 1)
}

/// The double nearest to it.
fn rounded(Finite { negative, whole, power }: Finite) -> f64 {
    let bits = 128 - whole.leading_zeros() as i32;
    let to = (power + bits - BITS).max(LEAST_POWER);
    let whole = if to > power { without_bits(whole, (to - power) as u32) } else { whole << (power - to) };
    // One bit more where it was rounded up to a power of 2.
    let (whole, power) = if whole >> BITS == 1 { (whole >> 1, to + 1) } else { (whole, to) };
    let exponent = if whole >> (BITS - 1) == 0 { 0 } else { (power + 1075) as u64 };
    let magnitude = if exponent >= 0x7FF { 0x7FF << 52 } else { exponent << 52 | whole as u64 & ((1 << 52) - 1) };
    f64::from_bits(magnitude | u64::from(negative) << 63)
}

/// Of the sum's magnitude; the number with the greater power comes first.
fn sum(x: Finite, y: Finite) -> Finite {
    let (apart, near) = (x.power - y.power, x.power - y.power <= FAR);
    let power = if near { y.power } else { x.power - FAR };
    let greater = (x.whole << apart.min(FAR)) as i128;
    let lesser = if near { y.whole as i128 } else { (y.whole != 0) as i128 };
    let signed = |whole: i128, negative: bool| if negative { -whole } else { whole };
    let sum = signed(greater, x.negative) + signed(lesser, y.negative);
    let negative = if sum == 0 { x.negative && y.negative } else { sum < 0 };
    Finite { negative, whole: sum.unsigned_abs(), power }
}

pub fn midway(x: f64, y: f64) -> f64 {
    let (Some(a), Some(b)) = (finite(x), finite(y)) else { return x + y };
    let sum = rounded(if a.power >= b.power { sum(a, b) } else { sum(b, a) });
    finite(sum).map_or(sum, |sum| rounded(Finite { power: sum.power - 1, ..sum }))
}
