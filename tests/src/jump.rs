//! Document 02, "skip ahead", without drawing. The bits of a register follow x(m+k) = x(m+q) xor x(m), so moving on by one bit is
//! multiplying by x modulo the trinomial x^k + x^q + 1 over GF(2), and n draws are the power x^(s n).
//! A polynomial is a number: its bit j is the factor of x^j.
use crate::stream::{bits, call, Note, Record, Registers, Shifts, SHIFTS};

fn bit(number: u64, place: usize) -> bool {
    number >> place & 1 == 1
}

/// The product of two polynomials of degree below k, modulo x^k + x^q + 1.
fn times(a: u64, b: u64, (k, q, _): Shifts) -> u64 {
    let trinomial = 1 << k | 1 << q | 1;
    let product = (0..k).filter(|&j| bit(b, j)).fold(0, |sum, j| sum ^ a << j);
    let reduced = |rest, j| if bit(rest, j) { rest ^ trinomial << (j - k) } else { rest };
    (k..2 * k).rev().fold(product, reduced)
}

/// The power x^n, by squares, from n's highest bit down.
fn power(n: u128, shifts: Shifts) -> u64 {
    let (mut power, x) = (1, 2);
    for place in (0..128 - n.leading_zeros()).rev() {
        power = times(power, power, shifts);
        if n >> place & 1 == 1 {
            power = times(power, x, shifts);
        }
    }
    power
}

/// A register n draws on: its bit i from the top is the sum of the bits x(i+j) of the recurrence, for each x^j of the power. None
/// leave it as it is, for what stands below its top k bits need not follow the recurrence.
pub fn register_after(register: u32, n: u64, shifts: Shifts) -> u32 {
    if n == 0 {
        return register;
    }
    let (k, _, s) = shifts;
    let power = power(u128::from(n) * s as u128, shifts);
    let x = bits(register, shifts, 32 + k);
    let sum = |i: usize| (0..k).filter(|&j| bit(power, j)).fold(0, |sum, j| sum ^ x[i + j]);
    (0..32).fold(0, |word, i| word << 1 | sum(i))
}

/// Both streams n draws on.
pub fn ahead(registers: &Registers, n: u64) -> Registers {
    std::array::from_fn(|j| register_after(registers[j], n, SHIFTS[j % 3]))
}

/// A skip as a public call: number and the next record.
pub fn skip(record: &Record, n: u64) -> (u32, Record) {
    call(record, Note::NoneOpen, 0, n, |registers| *registers = ahead(registers, n))
}
