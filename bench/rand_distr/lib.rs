//! rand_distr's normal distribution over rand's small generator, rounded to 11 fraction bits.
use rand::{rngs::SmallRng, Rng, SeedableRng};
use rand_distr::StandardNormal;
use std::cell::RefCell;

thread_local!(static RNG: RefCell<SmallRng> = RefCell::new(SmallRng::seed_from_u64(1)));

/// 1.5 times 2^52: a sum with it has the nearest whole number in its last bits.
const NEAREST: f64 = 6755399441055744.0;

/// # Safety
/// `block` has `length` elements.
#[no_mangle]
pub unsafe extern "C" fn rand_distr_block(block: *mut i16, length: usize) {
    let block = std::slice::from_raw_parts_mut(block, length);
    RNG.with(|rng| {
        let mut rng = rng.borrow_mut();
        for sample in block {
            let x: f64 = rng.sample(StandardNormal);
            *sample = (x * 2048.0 + NEAREST).to_bits() as i16;
        }
    });
}
