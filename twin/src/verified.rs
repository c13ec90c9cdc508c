//! The boundary to the verified library: the only file that knows its C function.

/// Whether the verified library is linked in.
pub const LINKED: bool = cfg!(verified);

/// Room that the listing of every schedule fits into.
///
/// A file has at most 60,000 bytes. No call prints more than 47 bytes for each of its own, but for
/// a commit, and each line that it prints was run by a call of its own.
pub const ROOM: usize = 4 << 20;

#[cfg(verified)]
unsafe extern "C" {
    /// Writes the listing of a schedule into the output and answers its length,
    /// or the largest number if it does not fit or memory is wanting.
    fn majurofi_play(input: *const u8, input_len: usize, output: *mut u8, output_len: usize)
    -> usize;
}

/// The length of the listing, which is written into `output`; none if it did not fit.
#[cfg(verified)]
pub fn play(input: &[u8], output: &mut [u8]) -> Option<usize> {
    // SAFETY: both pointers are valid for the lengths beside them, and the memories are apart.
    let length =
        unsafe { majurofi_play(input.as_ptr(), input.len(), output.as_mut_ptr(), output.len()) };
    if length == usize::MAX {
        return None;
    }
    assert!(length <= output.len(), "the library claims more bytes than it was given");
    Some(length)
}

/// With no library linked in there is never a listing.
#[cfg(not(verified))]
pub fn play(_input: &[u8], _output: &mut [u8]) -> Option<usize> {
    None
}
