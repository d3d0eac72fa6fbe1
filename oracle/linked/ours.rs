//! The library's one function, as a C or Rust program sees it (`tools/library` makes it). It is declared here and not taken from bindings/rust: the
//! counts after a refusal and a number that no table has are to be seen, and the wrapper lets neither through.

#[cfg(standin)]
extern crate standin;

#[repr(C)]
#[derive(Debug, Clone, Copy, Default, PartialEq, Eq)]
pub struct Counts {
    pub reads: u32,
    pub nodes: u32,
    pub errors: u32,
    pub expected: u32,
}

/// What a caller lends.
pub struct Lent<'a> {
    pub nodes: &'a mut [u32],
    pub errors: &'a mut [u32],
    pub expected: &'a mut [u8],
}

unsafe extern "C" {
    fn lucia_parse(
        text: *const u8,
        text_len: usize,
        tokens: *const u32,
        token_words: usize,
        allowance: u32,
        nodes: *mut u32,
        node_words: usize,
        errors: *mut u32,
        error_words: usize,
        expected: *mut u8,
        expected_len: usize,
        counts: *mut Counts,
    ) -> u8;
}

/// Kept whole, so that callgrind can tell what is spent below it.
#[inline(never)]
pub fn parse(text: &[u8], tokens: &[u32], allowance: u32, lent: &mut Lent, counts: &mut Counts) -> u8 {
    // Slices and references are what the function takes: aligned, not null, and the written ones apart from all others.
    unsafe {
        lucia_parse(
            text.as_ptr(),
            text.len(),
            tokens.as_ptr(),
            tokens.len(),
            allowance,
            lent.nodes.as_mut_ptr(),
            lent.nodes.len(),
            lent.errors.as_mut_ptr(),
            lent.errors.len(),
            lent.expected.as_mut_ptr(),
            lent.expected.len(),
            counts,
        )
    }
}
