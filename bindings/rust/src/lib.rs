//! Gaussian noise for simulated survey instruments: the calls of libjabulghi. `no_std`, and nothing is allocated.
//!
//! ```
//! # fn main() -> Result<(), jabulghi::Refusal> {
//! let mut rig = jabulghi::Generator::seed([3770694558, 3532774216, 2901327257, 4093209576, 2137023497, 2889436789])?;
//! let mut samples = [0; 4];
//! rig.fill(&mut samples)?;
//! assert_eq!(samples, [1877, -2463, 598, -664]); // each s is s / 2048 standard deviations
//! assert_eq!(rig.fill(&mut samples[..3]), Err(jabulghi::Refusal::OddLength));
//! # Ok(())
//! # }
//! ```
//!
//! Each call does what jabulghi.h says of it. A refused call changes nothing; an unfit window becomes zeros.
#![no_std]
#![warn(missing_docs)]

use core::fmt;

#[cfg(target_endian = "big")]
compile_error!("jabulghi: the lowest byte of a number comes first");

macro_rules! refusals {
    ($($name:ident = $number:literal, $words:literal;)*) => {
        /// Why a call was refused: the numbers of jabulghi.h.
        #[derive(Clone, Copy, Debug, PartialEq, Eq, Hash)]
        #[non_exhaustive]
        #[repr(u32)]
        pub enum Refusal {
            $(#[doc = $words] $name = $number,)*
        }

        impl Refusal {
            /// All of them.
            pub const ALL: &'static [Refusal] = &[$(Refusal::$name,)*];

            /// The number that the C call returns.
            pub const fn number(self) -> u32 {
                self as u32
            }

            /// The header's words.
            pub const fn words(self) -> &'static str {
                match self { $(Refusal::$name => $words,)* }
            }

            fn check(number: u32) -> Result<(), Refusal> {
                match number {
                    0 => Ok(()),
                    $($number => Err(Refusal::$name),)*
                    _ => unreachable!("libjabulghi returned {number}"),
                }
            }
        }
    };
}
include!("refusals.rs");

impl fmt::Display for Refusal {
    fn fmt(&self, f: &mut fmt::Formatter) -> fmt::Result {
        write!(f, "{} ({})", self.words(), self.number())
    }
}

impl core::error::Error for Refusal {}

/// Why a text was refused, and its bad line; 0 where none is meant.
#[derive(Clone, Copy, Debug, PartialEq, Eq, Hash)]
pub struct TextRefusal {
    /// Why.
    pub refusal: Refusal,
    /// The bad line, from 1.
    pub line: usize,
}

impl TextRefusal {
    fn check(number: u32, line: usize) -> Result<(), TextRefusal> {
        Refusal::check(number).map_err(|refusal| TextRefusal { refusal, line })
    }
}

impl fmt::Display for TextRefusal {
    fn fmt(&self, f: &mut fmt::Formatter) -> fmt::Result {
        match self.line {
            0 => self.refusal.fmt(f),
            line => write!(f, "line {line}: {}", self.refusal),
        }
    }
}

impl core::error::Error for TextRefusal {}

extern "C" {
    fn jabulghi_seed(a0: u32, a1: u32, a2: u32, b0: u32, b1: u32, b2: u32, record: *mut Generator) -> u32;
    fn jabulghi_sample(k: u64, v: u32, samples: *mut i16) -> u32;
    fn jabulghi_sample18(k: u64, v: u32, samples: *mut i32) -> u32;
    fn jabulghi_pair(record: *mut Generator, samples: *mut i16) -> u32;
    fn jabulghi_pair18(record: *mut Generator, samples: *mut i32) -> u32;
    fn jabulghi_block(record: *mut Generator, block: *mut i16, length: usize) -> u32;
    fn jabulghi_block18(record: *mut Generator, block: *mut i32, length: usize) -> u32;
    fn jabulghi_look(record: *const Generator, block: *mut i16, length: usize) -> u32;
    fn jabulghi_look18(record: *const Generator, block: *mut i32, length: usize) -> u32;
    fn jabulghi_take(record: *mut Generator, block: *mut i16, length: usize) -> u32;
    fn jabulghi_take18(record: *mut Generator, block: *mut i32, length: usize) -> u32;
    fn jabulghi_skip(record: *mut Generator, n: u64) -> u32;
    fn jabulghi_ask(record: *mut Generator, n: u32) -> u32;
    fn jabulghi_give_up(record: *mut Generator) -> u32;
    fn jabulghi_list(
        text: *const u8,
        text_length: usize,
        listing: *mut u8,
        listing_length: usize,
        line: *mut u32,
        length: *mut usize,
    ) -> u32;
    fn jabulghi_legs(
        text: *const u8,
        text_length: usize,
        shots: *mut u8,
        shots_length: usize,
        line: *mut usize,
        length: *mut usize,
    ) -> u32;
    fn jabulghi_misclosure(
        text: *const u8,
        text_length: usize,
        sums: *mut i64,
        millimetres: *mut i64,
        line: *mut u32,
    ) -> u32;
    fn jabulghi_intervals(
        text: *const u8,
        text_length: usize,
        sums: *mut i64,
        millimetres: *mut i64,
        line: *mut u32,
    ) -> u32;
    fn jabulghi_play(
        text: *const u8,
        text_length: usize,
        first: u64,
        misses: *mut [i64; 2],
        runs: usize,
        line: *mut u32,
    ) -> u32;
    fn jabulghi_window_make_members(
        size: *mut u32,
        held: *mut u32,
        place: *mut u32,
        places: *mut i16,
        sum: *mut i64,
        squares: *mut i64,
        n: u32,
    ) -> u32;
    fn jabulghi_window_push_members(
        size: *mut u32,
        held: *mut u32,
        place: *mut u32,
        places: *mut i16,
        sum: *mut i64,
        squares: *mut i64,
        sample: i16,
    ) -> u32;
    fn jabulghi_window_push_all_members(
        size: *mut u32,
        held: *mut u32,
        place: *mut u32,
        places: *mut i16,
        sum: *mut i64,
        squares: *mut i64,
        samples: *const i16,
        length: usize,
    ) -> u32;
    fn jabulghi_marks_save_members(
        used: *mut u32,
        lengths: *mut u32,
        names: *mut u8,
        records: *mut Generator,
        record: *const Generator,
        name: *const u8,
        length: usize,
    ) -> u32;
    fn jabulghi_marks_return_members(
        used: *const u32,
        lengths: *const u32,
        names: *const u8,
        records: *const Generator,
        record: *mut Generator,
        name: *const u8,
        length: usize,
    ) -> u32;
    fn jabulghi_marks_drop_members(
        used: *mut u32,
        lengths: *mut u32,
        names: *mut u8,
        records: *mut Generator,
        name: *const u8,
        length: usize,
    ) -> u32;
}

// Each call below passes references and slices on, with their own lengths: the header asks for no more of a pointer.

/// A generator: the header's record, whose members are open to be kept. It is `Clone` and not `Copy`: a copy gives the same noise again.
#[repr(C)]
#[derive(Clone, Debug, Default, PartialEq, Eq)]
pub struct Generator {
    /// The registers of stream a.
    pub a: [u32; 3],
    /// The registers of stream b.
    pub b: [u32; 3],
    /// The pairs that were handed out or skipped since seeding.
    pub count: u64,
    /// Whether a request is open: not 0.
    pub open: u32,
    /// For how many pairs.
    pub asked: u32,
}

impl Generator {
    /// A generator from the seeds of streams a and b.
    pub fn seed([a0, a1, a2, b0, b1, b2]: [u32; 6]) -> Result<Generator, Refusal> {
        let mut made = Generator::default();
        Refusal::check(unsafe { jabulghi_seed(a0, a1, a2, b0, b1, b2, &mut made) }).map(|()| made)
    }

    /// One pair.
    pub fn pair(&mut self) -> Result<[i16; 2], Refusal> {
        let mut samples = [0; 2];
        Refusal::check(unsafe { jabulghi_pair(self, samples.as_mut_ptr()) }).map(|()| samples)
    }

    /// One pair of 18 bits.
    pub fn pair18(&mut self) -> Result<[i32; 2], Refusal> {
        let mut samples = [0; 2];
        Refusal::check(unsafe { jabulghi_pair18(self, samples.as_mut_ptr()) }).map(|()| samples)
    }

    /// The next samples, first and second of each pair alternating: `jabulghi_block`.
    pub fn fill(&mut self, samples: &mut [i16]) -> Result<(), Refusal> {
        Refusal::check(unsafe { jabulghi_block(self, samples.as_mut_ptr(), samples.len()) })
    }

    /// The same of 18 bits: each s is s / 8192 standard deviations.
    pub fn fill18(&mut self, samples: &mut [i32]) -> Result<(), Refusal> {
        Refusal::check(unsafe { jabulghi_block18(self, samples.as_mut_ptr(), samples.len()) })
    }

    /// The samples that `fill` would give.
    pub fn look(&self, samples: &mut [i16]) -> Result<(), Refusal> {
        Refusal::check(unsafe { jabulghi_look(self, samples.as_mut_ptr(), samples.len()) })
    }

    /// The samples that `fill18` would give.
    pub fn look18(&self, samples: &mut [i32]) -> Result<(), Refusal> {
        Refusal::check(unsafe { jabulghi_look18(self, samples.as_mut_ptr(), samples.len()) })
    }

    /// Moves by any number of pairs at once.
    pub fn skip(&mut self, pairs: u64) -> Result<(), Refusal> {
        Refusal::check(unsafe { jabulghi_skip(self, pairs) })
    }

    /// Asks for so many pairs.
    pub fn ask(&mut self, pairs: u32) -> Result<(), Refusal> {
        Refusal::check(unsafe { jabulghi_ask(self, pairs) })
    }

    /// What was asked for: two samples for each pair.
    pub fn take(&mut self, samples: &mut [i16]) -> Result<(), Refusal> {
        Refusal::check(unsafe { jabulghi_take(self, samples.as_mut_ptr(), samples.len()) })
    }

    /// The same of 18 bits.
    pub fn take18(&mut self, samples: &mut [i32]) -> Result<(), Refusal> {
        Refusal::check(unsafe { jabulghi_take18(self, samples.as_mut_ptr(), samples.len()) })
    }

    /// Gives the request up.
    pub fn give_up(&mut self) -> Result<(), Refusal> {
        Refusal::check(unsafe { jabulghi_give_up(self) })
    }
}

/// The sum and the sum of squares of the latest `size` samples.
#[repr(C)]
#[derive(Clone, Debug, PartialEq, Eq)]
#[allow(missing_docs)]
pub struct Window {
    pub size: u32,
    pub held: u32,
    pub place: u32,
    pub places: [i16; 4096],
    pub sum: i64,
    pub squares: i64,
}

impl Window {
    /// Members of zeros, which are no window until `make`.
    pub const ZEROS: Window = Window { size: 0, held: 0, place: 0, places: [0; 4096], sum: 0, squares: 0 };

    /// A window for the latest `size` samples.
    pub fn new(size: u32) -> Result<Window, Refusal> {
        let mut made = Window::ZEROS;
        made.make(size).map(|()| made)
    }

    /// Makes it anew.
    pub fn make(&mut self, size: u32) -> Result<(), Refusal> {
        let places = self.places.as_mut_ptr();
        Refusal::check(unsafe {
            jabulghi_window_make_members(
                &mut self.size,
                &mut self.held,
                &mut self.place,
                places,
                &mut self.sum,
                &mut self.squares,
                size,
            )
        })
    }

    /// One sample.
    pub fn push(&mut self, sample: i16) -> Result<(), Refusal> {
        let places = self.places.as_mut_ptr();
        Refusal::check(unsafe {
            jabulghi_window_push_members(
                &mut self.size,
                &mut self.held,
                &mut self.place,
                places,
                &mut self.sum,
                &mut self.squares,
                sample,
            )
        })
    }

    /// Many samples.
    pub fn push_all(&mut self, samples: &[i16]) -> Result<(), Refusal> {
        let (places, all, length) = (self.places.as_mut_ptr(), samples.as_ptr(), samples.len());
        Refusal::check(unsafe {
            jabulghi_window_push_all_members(
                &mut self.size,
                &mut self.held,
                &mut self.place,
                places,
                &mut self.sum,
                &mut self.squares,
                all,
                length,
            )
        })
    }
}

/// Up to 16 places of generators, under names.
#[repr(C)]
#[derive(Clone, Debug, Default, PartialEq, Eq)]
#[allow(missing_docs)]
pub struct Marks {
    pub used: [u32; 16],
    pub length: [u32; 16],
    pub names: [[u8; 12]; 16],
    pub records: [Generator; 16],
}

impl Marks {
    /// Saves a generator's place under a name.
    pub fn save(&mut self, generator: &Generator, name: &[u8]) -> Result<(), Refusal> {
        let (used, lengths, names, records) = (
            self.used.as_mut_ptr(),
            self.length.as_mut_ptr(),
            self.names.as_mut_ptr().cast(),
            self.records.as_mut_ptr(),
        );
        Refusal::check(unsafe {
            jabulghi_marks_save_members(used, lengths, names, records, generator, name.as_ptr(), name.len())
        })
    }

    /// The generator goes back to where it was saved.
    pub fn return_to(&self, generator: &mut Generator, name: &[u8]) -> Result<(), Refusal> {
        let (used, lengths, names, records) =
            (self.used.as_ptr(), self.length.as_ptr(), self.names.as_ptr().cast(), self.records.as_ptr());
        Refusal::check(unsafe {
            jabulghi_marks_return_members(used, lengths, names, records, generator, name.as_ptr(), name.len())
        })
    }

    /// Drops a mark.
    pub fn drop_mark(&mut self, name: &[u8]) -> Result<(), Refusal> {
        let (used, lengths, names, records) = (
            self.used.as_mut_ptr(),
            self.length.as_mut_ptr(),
            self.names.as_mut_ptr().cast(),
            self.records.as_mut_ptr(),
        );
        Refusal::check(unsafe { jabulghi_marks_drop_members(used, lengths, names, records, name.as_ptr(), name.len()) })
    }
}

const _: () = assert!(size_of::<Generator>() == 40 && size_of::<Window>() == 8224 && size_of::<Marks>() == 960);

/// The two samples of k and v.
pub fn sample(k: u64, v: u32) -> Result<[i16; 2], Refusal> {
    let mut samples = [0; 2];
    Refusal::check(unsafe { jabulghi_sample(k, v, samples.as_mut_ptr()) }).map(|()| samples)
}

/// The two samples of k and v, of 18 bits.
pub fn sample18(k: u64, v: u32) -> Result<[i32; 2], Refusal> {
    let mut samples = [0; 2];
    Refusal::check(unsafe { jabulghi_sample18(k, v, samples.as_mut_ptr()) }).map(|()| samples)
}

/// The listing of a job, which is the start of the slice given.
///
/// ```
/// let job = b"(seeds (a 2 8 16) (b 2 8 16))\n(sigma 0 0)\n(shot A B 1000 0)\n";
/// let mut room = [0; jabulghi::LISTING_ROOM];
/// assert_eq!(jabulghi::list(job, &mut room), Ok(b"FROM TO MM STEP\nA B 1000 0\nEND 1\n".as_slice()));
/// assert_eq!(jabulghi::list(b"(sigma 0 0)\n", &mut room).unwrap_err().line, 1);
/// ```
pub fn list<'a>(job: &[u8], listing: &'a mut [u8]) -> Result<&'a [u8], TextRefusal> {
    let (mut line, mut length) = (0, 0);
    let number =
        unsafe { jabulghi_list(job.as_ptr(), job.len(), listing.as_mut_ptr(), listing.len(), &mut line, &mut length) };
    TextRefusal::check(number, line as usize).map(|()| &listing[..length])
}

/// The shot lines of a Survex text's level legs, which are the start of the slice given.
pub fn legs<'a>(survey: &[u8], shots: &'a mut [u8]) -> Result<&'a [u8], TextRefusal> {
    let (mut line, mut length) = (0, 0);
    let number = unsafe {
        jabulghi_legs(survey.as_ptr(), survey.len(), shots.as_mut_ptr(), shots.len(), &mut line, &mut length)
    };
    TextRefusal::check(number, line).map(|()| &shots[..length])
}

/// How far a loop misses: sums at 2^30, and millimetres.
#[derive(Clone, Copy, Debug, PartialEq, Eq)]
#[allow(missing_docs)]
pub struct Miss<const N: usize> {
    pub sums: [i64; N],
    pub millimetres: [i64; N],
}

/// How far the loop of a listing misses, east and north.
pub fn misclosure(listing: &[u8]) -> Result<Miss<2>, TextRefusal> {
    let (mut sums, mut millimetres, mut line) = ([0; 2], [0; 2], 0);
    let number = unsafe {
        jabulghi_misclosure(listing.as_ptr(), listing.len(), sums.as_mut_ptr(), millimetres.as_mut_ptr(), &mut line)
    };
    TextRefusal::check(number, line as usize).map(|()| Miss { sums, millimetres })
}

/// The same between two readings: east low, east high, north low, north high.
pub fn intervals(listing: &[u8]) -> Result<Miss<4>, TextRefusal> {
    let (mut sums, mut millimetres, mut line) = ([0; 4], [0; 4], 0);
    let number = unsafe {
        jabulghi_intervals(listing.as_ptr(), listing.len(), sums.as_mut_ptr(), millimetres.as_mut_ptr(), &mut line)
    };
    TextRefusal::check(number, line as usize).map(|()| Miss { sums, millimetres })
}

/// How far a job's loop misses in each play from the first on: east and north in millimetres.
pub fn play(job: &[u8], first: u64, misses: &mut [[i64; 2]]) -> Result<(), TextRefusal> {
    let mut line = 0;
    let number = unsafe { jabulghi_play(job.as_ptr(), job.len(), first, misses.as_mut_ptr(), misses.len(), &mut line) };
    TextRefusal::check(number, line as usize)
}
