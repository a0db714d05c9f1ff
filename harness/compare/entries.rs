//! Calls of the C entries under test. Everything lent to an entry stands between guard places, which have to stay.

use crate::library::{first, guavachisel_emulate, guavachisel_evaluate, guavachisel_read, guavachisel_read_constant, told, CONSTANT_PLACES, OUTCOME_PLACES};
use independent::rows::Registers;

const GUARDS: usize = 16;

/// Values between guards.
pub struct Guarded<T> {
    places: Vec<T>,
    guard: T,
}

impl<T: Copy + PartialEq> Guarded<T> {
    pub fn new(values: &[T], guard: T) -> Guarded<T> {
        let mut places = vec![guard; values.len() + 2 * GUARDS];
        places[GUARDS..GUARDS + values.len()].copy_from_slice(values);
        Guarded { places, guard }
    }

    pub fn pointer(&mut self) -> *mut T {
        self.places[GUARDS..].as_mut_ptr()
    }

    fn values(&self) -> &[T] {
        &self.places[GUARDS..self.places.len() - GUARDS]
    }

    fn unharmed(&self) -> bool {
        let end = self.places.len() - GUARDS;
        self.places[..GUARDS].iter().chain(&self.places[end..]).all(|place| *place == self.guard)
    }

    /// Whether nothing was written to, neither values nor guards.
    pub fn stayed(&self, values: &[T]) -> bool {
        self.values() == values && self.unharmed()
    }

    /// Takes the values back; the guards must have stayed.
    pub fn take_back(&self, into: &mut [T], what: &str) {
        into.copy_from_slice(self.values());
        assert!(self.unharmed(), "written outside the {}", what);
    }
}

pub fn emulate(memory: &mut [u16], registers: &mut [u16; 6], budget: u64) -> [u64; 3] {
    let mut words = Guarded::new(memory, 0xa5a5);
    let mut values = Guarded::new(&registers[..], 0x5a5a);
    let mut outcome = Guarded::new(&[77; OUTCOME_PLACES], u64::MAX - 5);
    unsafe { guavachisel_emulate(words.pointer(), memory.len(), values.pointer(), budget, outcome.pointer()) };
    words.take_back(memory, "memory");
    values.take_back(registers, "registers");
    let mut answer = [0; OUTCOME_PLACES];
    outcome.take_back(&mut answer, "outcome");
    first(answer)
}

pub fn read(text: &[u8]) -> [u64; 2] {
    let mut bytes = Guarded::new(text, b'1');
    let mut outcome = Guarded::new(&[77; OUTCOME_PLACES], u64::MAX - 5);
    unsafe { guavachisel_read(bytes.pointer(), text.len(), outcome.pointer()) };
    assert!(bytes.stayed(text), "the text was written to");
    let mut answer = [0; OUTCOME_PLACES];
    outcome.take_back(&mut answer, "outcome");
    first(answer)
}

/// NULL for an empty line, every other start. A place that isn't written keeps a number that no constant has.
pub fn read_constant(line: &[u8], start: u64) -> [u64; CONSTANT_PLACES] {
    let mut bytes = Guarded::new(line, b'1');
    let mut constant = Guarded::new(&[u64::MAX - 7; CONSTANT_PLACES], u64::MAX - 5);
    let first = if line.is_empty() && start % 2 == 1 { std::ptr::null() } else { bytes.pointer() };
    unsafe { guavachisel_read_constant(first, line.len(), start, constant.pointer()) };
    assert!(bytes.stayed(line), "the line was written to");
    let mut answer = [0; CONSTANT_PLACES];
    constant.take_back(&mut answer, "constant");
    answer
}

pub fn evaluate(text: &[u8], memory: &mut [u16], registers: &mut Registers, budget: u64, rows: &mut [u8]) -> [u64; 4] {
    let mut bytes = Guarded::new(text, b'1');
    let mut words = Guarded::new(memory, 0xa5a5);
    let mut values = Guarded::new(&registers[..], 0x5a5a);
    let mut list = Guarded::new(rows, 0xa5);
    let mut outcome = Guarded::new(&[77; OUTCOME_PLACES], u64::MAX - 5);
    unsafe {
        guavachisel_evaluate(
            bytes.pointer(),
            text.len(),
            words.pointer(),
            memory.len(),
            values.pointer(),
            budget,
            list.pointer(),
            rows.len(),
            outcome.pointer(),
        )
    };
    assert!(bytes.stayed(text), "the text was written to");
    words.take_back(memory, "memory");
    values.take_back(registers, "registers");
    list.take_back(rows, "row list");
    let mut answer = [0; OUTCOME_PLACES];
    outcome.take_back(&mut answer, "outcome");
    told(answer)
}
