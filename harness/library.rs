//! The library's entries, as include/guavachisel.h declares them. A struct is handed over as the array of its numbers, in their order.

#[allow(dead_code)]
extern "C" {
    pub fn guavachisel_version() -> u64;
    pub fn guavachisel_emulate(memory: *mut u16, words: usize, machine: *mut u16, budget: u64, outcome: *mut u64);
    pub fn guavachisel_read(text: *const u8, bytes: usize, outcome: *mut u64);
    pub fn guavachisel_read_constant(line: *const u8, bytes: usize, start: u64, constant: *mut u64);
    pub fn guavachisel_evaluate(
        text: *const u8,
        bytes: usize,
        memory: *mut u16,
        words: usize,
        registers: *mut u16,
        budget: u64,
        rows: *mut u8,
        places: usize,
        outcome: *mut u64,
    );
    pub fn guavachisel_emulate_devices(
        memory: *mut u16,
        words: usize,
        machine: *mut u16,
        devices: *mut u16,
        budget: u64,
        input: *const u8,
        bytes: usize,
        output: *mut u8,
        room: usize,
        outcome: *mut u64,
    );
    pub fn guavachisel_evaluate_devices(
        text: *const u8,
        bytes: usize,
        memory: *mut u16,
        words: usize,
        registers: *mut u16,
        budget: u64,
        rows: *mut u8,
        places: usize,
        input: *const u8,
        input_bytes: usize,
        output: *mut u8,
        room: usize,
        outcome: *mut u64,
    );
    pub fn guavachisel_shipped(which: u64, text: *mut u8, room: usize, outcome: *mut u64);
}

/// found, value, matter, width, after
#[allow(dead_code)]
pub const CONSTANT_PLACES: usize = 5;

/// refusal, place, steps, reason, rows, read, printed, answer, sum
pub const OUTCOME_PLACES: usize = 9;

/// What an outcome says of a run with devices: refusal, steps or the refusal's place, reason, rows, bytes that arrived, bytes printed. Everything else has to be 0.
pub fn told_devices(outcome: [u64; OUTCOME_PLACES]) -> [u64; 6] {
    let [refusal, place, steps, reason, rows, read, printed, answer, sum] = outcome;
    let (said, unsaid) = if refusal == 0 { (steps, place) } else { (place, steps) };
    assert_eq!([unsaid, answer, sum], [0; 3], "the outcome {:?} says more than it may", outcome);
    [refusal, said, reason, rows, read, printed]
}

/// What an outcome says of a run without devices: the first four of these.
pub fn told(outcome: [u64; OUTCOME_PLACES]) -> [u64; 4] {
    let [refusal, said, reason, rows, read, printed] = told_devices(outcome);
    assert_eq!([read, printed], [0; 2], "the outcome {:?} says more than it may", outcome);
    [refusal, said, reason, rows]
}

/// The first numbers of an outcome, for an entry that speaks of no others.
#[allow(dead_code)]
pub fn first<const N: usize>(outcome: [u64; OUTCOME_PLACES]) -> [u64; N] {
    let told = told(outcome);
    assert!(told[N..].iter().all(|number| *number == 0), "the outcome {:?} says more than it may", outcome);
    told[..N].try_into().unwrap()
}

/// The description that the library ships under this number; empty if it ships none.
#[allow(dead_code)]
pub fn shipped(which: u64) -> Vec<u8> {
    let mut text = vec![0; 16384];
    let mut outcome = [0; OUTCOME_PLACES];
    unsafe { guavachisel_shipped(which, text.as_mut_ptr(), text.len(), outcome.as_mut_ptr()) };
    let [refusal, place, steps, reason, rows, read, printed, answer, sum] = outcome;
    assert_eq!([refusal, place, steps, reason, rows, read, printed, sum], [0; 8], "the outcome {:?} says more than it may", outcome);
    text.truncate(answer as usize);
    text
}
