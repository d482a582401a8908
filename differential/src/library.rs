//! The proved library: `script::run`, exported as `firmeskal_run`.

extern "C" {
    fn firmeskal_run(
        script: *const u8,
        script_length: usize,
        symbols: *const u8,
        symbols_length: usize,
        wording: *const u8,
        wording_length: usize,
        answers: *mut u8,
        answers_length: usize,
    ) -> usize;
}

/// How many bytes of `answers` the script's commands wrote.
pub fn run_into(script: &[u8], symbols: &[u8], wording: &[u8], answers: &mut [u8]) -> usize {
    let (to, length) = (answers.as_mut_ptr(), answers.len());
    // The four parts are borrowed for the whole call, `answers` alone is written to, and none overlaps another.
    unsafe { firmeskal_run(script.as_ptr(), script.len(), symbols.as_ptr(), symbols.len(), wording.as_ptr(), wording.len(), to, length) }
}

/// A byte that stands where nothing was written.
const UNWRITTEN: u8 = 0xa5;

/// What the script's commands answer, with room for `room` bytes; nothing if bytes past the answers were touched.
pub fn run(script: &[u8], symbols: &[u8], wording: &[u8], room: usize) -> Option<Vec<u8>> {
    let mut answers = vec![UNWRITTEN; room];
    let written = run_into(script, symbols, wording, &mut answers);
    let untouched = answers.get(written..)?.iter().all(|b| *b == UNWRITTEN);
    answers.truncate(written);
    untouched.then_some(answers)
}
