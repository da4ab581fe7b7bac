//! The proved library, as `crates/bench_lent_c`, `bench_value`, `bench_translate` and
//! `bench_calls` export it. Its functions ask nothing of the caller but what their types say.

/// Room for an end; `size` says how much of it one takes.
#[repr(C, align(8))]
pub struct End([u8; 512]);

extern "C" {
    fn gurfemau_new(end: *mut End);
    fn gurfemau_byte(end: *mut End, byte: u8) -> u64;
    fn gurfemau_replies(bytes: *const u8, count: usize) -> u64;
    fn gurfemau_translations(words: *const u32, count: usize) -> u64;
    fn gurfemau_offsets(bytes: *const u8, count: usize, channels: *const u8, n: usize) -> u64;
    fn gurfemau_notes(notes: *const u8, count: usize) -> u64;
    fn gurfemau_restatement(bend: u16, bytes: *mut u8, count: usize) -> usize;
}

impl End {
    pub fn new() -> Self {
        Self::over(0)
    }

    /// A new end in room that held this byte everywhere.
    fn over(byte: u8) -> Self {
        let mut end = Self([byte; 512]);
        unsafe { gurfemau_new(&mut end) };
        end
    }

    /// The byte call on the lent end: its reply as a number.
    #[inline(always)]
    pub fn byte(&mut self, byte: u8) -> u64 {
        unsafe { gurfemau_byte(self, byte) }
    }

    /// How many bytes an end takes: up to the last that is set in a new one, whatever was there.
    pub fn size() -> usize {
        let (zeros, ones) = (Self::over(0), Self::over(0xFF));
        let is_set = |i: &usize| zeros.0[*i] == ones.0[*i];
        (0..zeros.0.len()).rev().find(is_set).map_or(0, |i| i + 1)
    }
}

/// A new end hears the bytes by value: the sum of its replies.
pub fn replies(bytes: &[u8]) -> u64 {
    unsafe { gurfemau_replies(bytes.as_ptr(), bytes.len()) }
}

/// A new end hears the bytes lent: the sum of its replies.
pub fn replies_lent(bytes: &[u8]) -> u64 {
    let mut end = End::new();
    let add = |sum: u64, byte: &u8| sum.wrapping_add(end.byte(*byte));
    bytes.iter().fold(0, add)
}

/// A new record takes the messages by value: the sum of its answers.
pub fn translations(words: &[u32]) -> u64 {
    unsafe { gurfemau_translations(words.as_ptr(), words.len()) }
}

/// A new end hears the bytes and tells the offset of each channel: the sum of the magnitudes.
pub fn offsets(bytes: &[u8], channels: &[u8]) -> u64 {
    unsafe {
        gurfemau_offsets(
            bytes.as_ptr(),
            bytes.len(),
            channels.as_ptr(),
            channels.len(),
        )
    }
}

/// A new allocator takes the notes: the sum of the channels that it gave.
pub fn notes(notes: &[u8]) -> u64 {
    unsafe { gurfemau_notes(notes.as_ptr(), notes.len()) }
}

/// Restatements of two zones of seven with each of these bends: the sum of the last bytes written.
pub fn restatements(bends: &[u16]) -> u64 {
    let mut bytes = [0u8; 512];
    let mut sum = 0u64;
    for bend in bends {
        let n = unsafe { gurfemau_restatement(*bend, bytes.as_mut_ptr(), bytes.len()) };
        sum = sum.wrapping_add(bytes[..n].iter().map(|b| u64::from(*b)).sum());
    }
    sum
}
