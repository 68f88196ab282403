//! Document 01, "Radius" and "Angle and sample", with the half step of document 02, Job 5, step by step in wide whole numbers.
use crate::fixed::{cosine_and_sine, ln};

/// The tables, each entry the nearest whole number to its value times 2^40 or 2^30.
pub struct Tables {
    /// A, from h = 256 on
    a: Vec<i128>,
    /// B
    b: Vec<i128>,
    /// K
    k: i128,
    /// C and D, at a/512 of a turn
    coarse: Vec<(i128, i128)>,
    /// c and s, at b/65536 of a turn
    fine: Vec<(i128, i128)>,
}

/// e, h, d and i.
#[derive(Clone, Copy)]
pub struct Cell {
    pub e: i128,
    pub h: i128,
    pub d: i128,
    pub i: i128,
}

impl Cell {
    /// The cell of a k from 0 to 2^48 - 1: steps 1 to 3 of the radius.
    pub fn of(k: u64) -> Cell {
        let n = 2 * i128::from(k) + 1;
        let e = (0..49).rfind(|&bit| n >= 1 << bit).unwrap();
        let m = n << (48 - e);
        let (h, d) = (m >> 40, m & ((1 << 40) - 1));
        Cell { e, h, d, i: d / (h << 24) }
    }

    /// r, what d has beyond i times h 2^24.
    pub fn rest(&self) -> i128 {
        self.d - self.i * (self.h << 24)
    }
}

impl Tables {
    pub fn new() -> Tables {
        let log = |n: u32, d: u32| i128::from(ln(n, d).nearest(40));
        let rotation = |n: u32| {
            let (cosine, sine) = cosine_and_sine(n);
            (i128::from(cosine.nearest(30)), i128::from(sine.nearest(30)))
        };
        Tables {
            a: (256..512).map(|h| log(h, 256)).collect(),
            b: (0..256).map(|i| log(65536 + i, 65536)).collect(),
            k: log(2, 1),
            coarse: (0..128).map(|a| rotation(128 * a)).collect(),
            fine: (0..128).map(rotation).collect(),
        }
    }

    pub fn ln_two(&self) -> i128 {
        self.k
    }

    /// 2Q from a cell: steps 4 and 5 of the radius.
    pub fn under_root(&self, cell: &Cell) -> i128 {
        let Cell { e, h, i, .. } = *cell;
        let s = (cell.rest() << 16) / (h * (65536 + i));
        let q = (49 - e) * self.k - self.a[h as usize - 256] - self.b[i as usize] - s;
        2 * q.max(0)
    }

    /// Sine and cosine at 2^30 of v/65536 of a turn, v at most 65535.
    pub fn rotation(&self, v: u32) -> (i128, i128) {
        let (quarter, w) = (v / 16384, v % 16384);
        let (big_c, big_d) = self.coarse[w as usize / 128];
        let (c, s) = self.fine[w as usize % 128];
        let cos = (big_c * c - big_d * s).div_euclid(1 << 30);
        let sin = (big_d * c + big_c * s).div_euclid(1 << 30);
        match quarter {
            0 => (sin, cos),
            1 => (cos, -sin),
            2 => (-sin, -cos),
            _ => (-cos, sin),
        }
    }

    /// The answer of the call from k and v: number, first sample, second sample.
    pub fn sample(&self, k: u64, v: u32) -> (u32, i16, i16) {
        let (number, (first, second)) = self.answer(k, v, Tables::turned);
        (number, first, second)
    }

    /// The same in 18 bits, 13 of them fraction bits (document 02, Job 8).
    pub fn sample18(&self, k: u64, v: u32) -> (u32, i32, i32) {
        let (number, (first, second)) = self.answer(k, v, Tables::turned18);
        (number, first, second)
    }

    fn answer<T: Default>(&self, k: u64, v: u32, turned: fn(&Tables, i128, u32) -> (T, T)) -> (u32, (T, T)) {
        if k >= 1 << 48 {
            return (2, Default::default());
        }
        if v > 65535 {
            return (3, Default::default());
        }
        (0, turned(self, root(self.under_root(&Cell::of(k))), v))
    }

    /// The samples of F and a v at most 65535.
    pub fn turned(&self, f: i128, v: u32) -> (i16, i16) {
        let (first, second) = self.rotation(v);
        (i16::try_from(scaled(f, first, 11)).unwrap(), i16::try_from(scaled(f, second, 11)).unwrap())
    }

    fn turned18(&self, f: i128, v: u32) -> (i32, i32) {
        let (first, second) = self.rotation(v);
        (i32::try_from(scaled(f, first, 13)).unwrap(), i32::try_from(scaled(f, second, 13)).unwrap())
    }
}

/// A sample with so many fraction bits, as F has 20 and g 30.
fn scaled(f: i128, g: i128, bits: u32) -> i128 {
    let size = (f * g.abs() + (1 << (49 - bits))) >> (50 - bits);
    g.signum() * size
}

/// The whole part of the square root, by bits from the top. Of 2Q it is F, the radius times 2^20.
pub fn root(x: i128) -> i128 {
    let mut out = 0i64;
    let x = x as i64;
    for bit in (0..25).rev() {
        let more = out | 1 << bit;
        if more * more <= x {
            out = more;
        }
    }
    assert!(out * out <= x && x < (out + 1) * (out + 1));
    i128::from(out)
}
