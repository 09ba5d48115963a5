//! Knuth's Algorithm H in C (algorithm_h.c), literal and tuned, each as two compilers make it.
//!
//! It lists moves and no more: it tests no survey, knows no buffer and no end that could be told from a run that was full.
use super::words::MOST_DIGITS;

type Function = unsafe extern "C" fn(radices: *const u8, digits: usize, t: usize, out: *mut u8) -> usize;

extern "C" {
    fn algorithm_h_cc(radices: *const u8, digits: usize, t: usize, out: *mut u8) -> usize;
    fn algorithm_h_clang(radices: *const u8, digits: usize, t: usize, out: *mut u8) -> usize;
    fn algorithm_h_tuned_cc(radices: *const u8, digits: usize, t: usize, out: *mut u8) -> usize;
    fn algorithm_h_tuned_clang(radices: *const u8, digits: usize, t: usize, out: *mut u8) -> usize;
}

/// One of the functions above, which all keep to what algorithm_h.c says.
pub struct AlgorithmH(Function);

/// A form of the algorithm: by cc, and by clang, or by cc again where the library was built without clang.
pub type Form = [AlgorithmH; 2];

/// Step by step as Knuth describes it.
pub const LITERAL: Form = [AlgorithmH(algorithm_h_cc), AlgorithmH(algorithm_h_clang)];
/// With the focus pointer f_0 in a register, and counts of moves left in place of the word.
pub const TUNED: Form = [AlgorithmH(algorithm_h_tuned_cc), AlgorithmH(algorithm_h_tuned_clang)];

impl AlgorithmH {
    /// The first moves of the list at the start of `out`, at most t of them; how many they are. Panics where the survey has too
    /// many digits, or `out` no room for t bytes.
    #[inline]
    pub fn run(&self, radices: &[u8], t: u64, out: &mut [u8]) -> u64 {
        assert!(radices.len() <= MOST_DIGITS, "as many digits as its arrays have places");
        let out = &mut out[..t as usize];
        // The lengths are those of the slices, and its arrays have room for all digits: it reads and writes nothing else.
        let made = unsafe { self.0(radices.as_ptr(), radices.len(), out.len(), out.as_mut_ptr()) };
        made as u64
    }
}
