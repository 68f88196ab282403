// Eight readings of one shot of 12.345 m with a sigma of 4 mm.
//
//   rustc --edition 2021 -O noise.rs $(pkg-config --libs jabulghi) -o noise
#[repr(C)]
#[derive(Default)]
struct Record {
    a: [u32; 3],
    b: [u32; 3],
    count: u64,
    open: u32,
    asked: u32,
}

extern "C" {
    fn jabulghi_seed(a0: u32, a1: u32, a2: u32, b0: u32, b1: u32, b2: u32, record: &mut Record) -> u32;
    fn jabulghi_block(record: &mut Record, block: *mut i16, length: usize) -> u32;
}

fn main() {
    let (mut record, mut block) = (Record::default(), [0i16; 8]);
    let seeded =
        unsafe { jabulghi_seed(3770694558, 3532774216, 2901327257, 4093209576, 2137023497, 2889436789, &mut record) };
    let drawn = unsafe { jabulghi_block(&mut record, block.as_mut_ptr(), block.len()) };
    assert!(seeded == 0 && drawn == 0);
    for sample in block {
        println!("{:.2} mm", 12345.0 + 4.0 * f64::from(sample) / 2048.0);
    }
}
