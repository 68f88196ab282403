//! Numbers from 0 up to 2^32 at 192 fraction bits, and the logarithms, sines and cosines worked out in them.
//! Each operation rounds down; the series below are off by far less than 2^-160.

const FRACTION: usize = 6;
const LIMBS: usize = FRACTION + 1;

/// The value is the whole number of `self.0`, lowest limb first, over 2^192.
#[derive(Clone, Copy, PartialEq, Eq, Debug)]
pub struct Fixed([u32; LIMBS]);

impl Fixed {
    pub const ZERO: Fixed = Fixed([0; LIMBS]);

    pub fn whole(n: u32) -> Fixed {
        let mut limbs = [0; LIMBS];
        limbs[FRACTION] = n;
        Fixed(limbs)
    }

    pub fn is_zero(&self) -> bool {
        *self == Fixed::ZERO
    }

    pub fn plus(&self, other: &Fixed) -> Fixed {
        let (mut out, mut carry) = (Fixed::ZERO, 0u64);
        for j in 0..LIMBS {
            let sum = u64::from(self.0[j]) + u64::from(other.0[j]) + carry;
            out.0[j] = sum as u32;
            carry = sum >> 32;
        }
        assert_eq!(carry, 0, "a sum beyond 2^32");
        out
    }

    pub fn minus(&self, other: &Fixed) -> Fixed {
        let (mut out, mut borrow) = (Fixed::ZERO, 0i64);
        for j in 0..LIMBS {
            let difference = i64::from(self.0[j]) - i64::from(other.0[j]) + borrow;
            out.0[j] = difference.rem_euclid(1 << 32) as u32;
            borrow = difference.div_euclid(1 << 32);
        }
        assert_eq!(borrow, 0, "a difference below 0");
        out
    }

    pub fn times_small(&self, n: u32) -> Fixed {
        let (mut out, mut carry) = (Fixed::ZERO, 0u64);
        for j in 0..LIMBS {
            let product = u64::from(self.0[j]) * u64::from(n) + carry;
            out.0[j] = product as u32;
            carry = product >> 32;
        }
        assert_eq!(carry, 0, "a product beyond 2^32");
        out
    }

    pub fn over_small(&self, n: u32) -> Fixed {
        let (mut out, mut rest) = (Fixed::ZERO, 0u64);
        for j in (0..LIMBS).rev() {
            let part = (rest << 32) | u64::from(self.0[j]);
            out.0[j] = (part / u64::from(n)) as u32;
            rest = part % u64::from(n);
        }
        out
    }

    pub fn times(&self, other: &Fixed) -> Fixed {
        let mut wide = [0u32; 2 * LIMBS];
        for i in 0..LIMBS {
            let mut carry = 0u64;
            for j in 0..LIMBS {
                let sum = u64::from(self.0[i]) * u64::from(other.0[j]) + u64::from(wide[i + j]) + carry;
                wide[i + j] = sum as u32;
                carry = sum >> 32;
            }
            wide[i + LIMBS] = carry as u32;
        }
        assert!(wide[FRACTION + LIMBS..].iter().all(|&limb| limb == 0), "a product beyond 2^32");
        let mut out = Fixed::ZERO;
        out.0.copy_from_slice(&wide[FRACTION..FRACTION + LIMBS]);
        out
    }

    /// The whole number nearest to self times 2^bits, bits at most 63 and self below 2^(64 - bits).
    /// Stops where the number is too near to a half for this precision to decide.
    pub fn nearest(&self, bits: usize) -> u64 {
        let bit = |place: usize| u64::from(self.0[place / 32] >> (place % 32) & 1);
        let point = 32 * FRACTION - bits;
        let whole = (point..(point + 64).min(32 * LIMBS)).fold(0u64, |sum, place| sum | bit(place) << (place - point));
        let next = (0..24).fold(0u64, |sum, j| 2 * sum + bit(point - 1 - j));
        let half = 1 << 23;
        assert!(next != half && next + 1 != half, "too near to a half");
        whole + next / half
    }
}

/// ln(n / d) for n at least d: twice the sum of t^(2j+1) / (2j+1), t = (n - d) / (n + d).
pub fn ln(n: u32, d: u32) -> Fixed {
    let (p, q) = (n - d, n + d);
    let mut power = Fixed::whole(2).times_small(p).over_small(q);
    let (mut sum, mut odd) = (Fixed::ZERO, 1);
    while !power.is_zero() {
        sum = sum.plus(&power.over_small(odd));
        power = power.times_small(p).over_small(q).times_small(p).over_small(q);
        odd += 2;
    }
    sum
}

/// n times the arc tangent of 1/m.
fn arc_tangent(n: u32, m: u32) -> Fixed {
    let (mut power, mut odd) = (Fixed::whole(n).over_small(m), 1);
    let (mut more, mut less) = (Fixed::ZERO, Fixed::ZERO);
    while !power.is_zero() {
        more = more.plus(&power.over_small(odd));
        power = power.over_small(m).over_small(m);
        less = less.plus(&power.over_small(odd + 2));
        power = power.over_small(m).over_small(m);
        odd += 4;
    }
    more.minus(&less)
}

/// A whole turn over 2^16, by Machin's formula.
fn turn_over_65536() -> Fixed {
    let pi = arc_tangent(16, 5).minus(&arc_tangent(4, 239));
    pi.over_small(1 << 15)
}

/// Cosine and sine of n/65536 of a turn, less than a quarter: the power series, whose terms have the signs + + - -.
pub fn cosine_and_sine(n: u32) -> (Fixed, Fixed) {
    assert!(n < 16384);
    let x = turn_over_65536().times_small(n);
    let mut sums = [Fixed::ZERO; 4];
    let (mut term, mut j) = (Fixed::whole(1), 0);
    while !term.is_zero() {
        sums[j % 4] = sums[j % 4].plus(&term);
        j += 1;
        term = term.times(&x).over_small(j as u32);
    }
    (sums[0].minus(&sums[2]), sums[1].minus(&sums[3]))
}
