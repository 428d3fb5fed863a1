//! The C entries of `libjudge_bench.a`, which only judge a case file or a
//! claim, as safe functions.

#[link(name = "judge_bench", kind = "static")]
unsafe extern "C" {
    fn rezkundo_judge(text: *const u8, len: usize) -> u32;
    fn rezkundo_judge_claim(text: *const u8, len: usize) -> u32;
}

/// 0 if the case is accepted, else the number of its refusal.
pub fn judge(text: &[u8]) -> u32 {
    // SAFETY: pointer and length come from one slice that lives until the
    // call returns, and the call only reads.
    unsafe { rezkundo_judge(text.as_ptr(), text.len()) }
}

/// 0 if the claim is taken, else the number of its refusal.
pub fn judge_claim(text: &[u8]) -> u32 {
    // SAFETY: as above.
    unsafe { rezkundo_judge_claim(text.as_ptr(), text.len()) }
}
