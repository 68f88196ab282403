#[repr(C)]
#[derive(Default)]
struct Record {
    a: [u32; 3],
    b: [u32; 3],
    count: u64,
    open: u32,
    asked: u32,
}
extern "C" {
    fn jabulghi_seed(a0: u32, a1: u32, a2: u32, b0: u32, b1: u32, b2: u32, record: &mut Record) -> u32;
    fn jabulghi_block(record: &mut Record, block: *mut i16, length: usize) -> u32;
}
fn main() {
    let (mut record, mut block) = (Record::default(), [0; 8]);
    assert_eq!(unsafe { jabulghi_seed(2, 8, 16, 2, 8, 16, &mut record) }, 0);
    assert_eq!(unsafe { jabulghi_block(&mut record, block.as_mut_ptr(), block.len()) }, 0);
    block.iter().for_each(|sample| println!("{sample}"));
    println!("{} pairs", record.count);
}
