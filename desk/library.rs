// The two calls of the library, on slices.

extern "C" {
    fn kantsufel_run(moves: *const u8, moves_len: usize, log: *mut u8, log_len: usize) -> u64;
    fn kantsufel_judge(log: *const u8, log_len: usize, entries: *mut u8, entries_len: usize)
        -> u64;
}

pub fn run(moves: &[u8], log: &mut [u8]) -> u64 {
    unsafe { kantsufel_run(moves.as_ptr(), moves.len(), log.as_mut_ptr(), log.len()) }
}

pub fn judge(log: &[u8], entries: &mut [u8]) -> u64 {
    unsafe { kantsufel_judge(log.as_ptr(), log.len(), entries.as_mut_ptr(), entries.len()) }
}
