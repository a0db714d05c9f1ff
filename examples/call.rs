//! The entries from Rust: the day's image run by the emulator, and by the evaluator of the shipped description; a description of our own, read and run; the
//! constants of an expression; and a program that answers at the teleprinter, on the machine with devices and on the twin of the shipped description.

/// guavachisel_machine
#[repr(C)]
#[derive(Default)]
struct Machine {
    lac: u16,
    pc: u16,
    run: u16,
    interrupt_enable: u16,
    interrupt_request: u16,
    switches: u16,
}

/// guavachisel_devices
#[repr(C)]
#[derive(Default)]
struct Devices {
    key_byte: u16,
    keyboard_flag: u16,
    printer_flag: u16,
    print_byte: u16,
    print_mark: u16,
}

/// guavachisel_outcome
#[repr(C)]
#[derive(Default)]
struct Outcome {
    refusal: u64,
    place: u64,
    steps: u64,
    reason: u64,
    rows: u64,
    read: u64,
    printed: u64,
    answer: u64,
    sum: u64,
}

/// guavachisel_constant
#[repr(C)]
#[derive(Default)]
struct Constant {
    found: u64,
    value: u64,
    matter: u64,
    width: u64,
    after: u64,
}

const VERSION: u64 = 3;
const WORDS: usize = 4096;
const REGISTERS: usize = 32;
const ROWS: usize = 128;
const REFUSED_VALUE: u64 = 13;
const PLAIN: u64 = 0;
const DEVICES: u64 = 1;

extern "C" {
    fn guavachisel_version() -> u64;
    fn guavachisel_emulate(memory: *mut u16, words: usize, machine: *mut Machine, budget: u64, outcome: *mut Outcome);
    #[rustfmt::skip]
    fn guavachisel_emulate_devices(
        memory: *mut u16, words: usize, machine: *mut Machine, devices: *mut Devices, budget: u64,
        input: *const u8, bytes: usize, output: *mut u8, room: usize, outcome: *mut Outcome,
    );
    fn guavachisel_read(text: *const u8, bytes: usize, outcome: *mut Outcome);
    fn guavachisel_read_constant(line: *const u8, bytes: usize, start: u64, constant: *mut Constant);
    #[rustfmt::skip]
    fn guavachisel_evaluate(
        text: *const u8, bytes: usize, memory: *mut u16, words: usize, registers: *mut [u16; REGISTERS], budget: u64,
        rows: *mut u8, places: usize, outcome: *mut Outcome,
    );
    #[rustfmt::skip]
    fn guavachisel_evaluate_devices(
        text: *const u8, bytes: usize, memory: *mut u16, words: usize, registers: *mut [u16; REGISTERS], budget: u64,
        rows: *mut u8, places: usize, input: *const u8, input_bytes: usize, output: *mut u8, room: usize, outcome: *mut Outcome,
    );
    fn guavachisel_shipped(which: u64, text: *mut u8, room: usize, outcome: *mut Outcome);
}

/// Safe to call: every entry takes whatever it is handed, the lengths are those of what is lent, and nothing that is lent to be changed overlaps.
fn emulate(memory: &mut [u16], machine: &mut Machine, budget: u64) -> Outcome {
    let mut outcome = Outcome::default();
    unsafe { guavachisel_emulate(memory.as_mut_ptr(), memory.len(), machine, budget, &mut outcome) };
    outcome
}

fn read(text: &[u8]) -> Outcome {
    let mut outcome = Outcome::default();
    unsafe { guavachisel_read(text.as_ptr(), text.len(), &mut outcome) };
    outcome
}

/// `None` where no constant is there.
fn read_constant(line: &[u8], start: usize) -> Option<Constant> {
    let mut constant = Constant::default();
    unsafe { guavachisel_read_constant(line.as_ptr(), line.len(), start as u64, &mut constant) };
    if constant.found == 1 { Some(constant) } else { None }
}

#[rustfmt::skip]
fn evaluate(text: &[u8], memory: &mut [u16], registers: &mut [u16; REGISTERS], budget: u64, rows: &mut [u8]) -> Outcome {
    let mut outcome = Outcome::default();
    unsafe {
        guavachisel_evaluate(text.as_ptr(), text.len(), memory.as_mut_ptr(), memory.len(), registers, budget,
                             rows.as_mut_ptr(), rows.len(), &mut outcome)
    };
    outcome
}

#[rustfmt::skip]
fn emulate_devices(memory: &mut [u16], machine: &mut Machine, devices: &mut Devices, budget: u64, input: &[u8], output: &mut [u8]) -> Outcome {
    let mut outcome = Outcome::default();
    unsafe {
        guavachisel_emulate_devices(memory.as_mut_ptr(), memory.len(), machine, devices, budget,
                                    input.as_ptr(), input.len(), output.as_mut_ptr(), output.len(), &mut outcome)
    };
    outcome
}

#[rustfmt::skip]
fn evaluate_devices(text: &[u8], memory: &mut [u16], registers: &mut [u16; REGISTERS], budget: u64, rows: &mut [u8], input: &[u8], output: &mut [u8]) -> Outcome {
    let mut outcome = Outcome::default();
    unsafe {
        guavachisel_evaluate_devices(text.as_ptr(), text.len(), memory.as_mut_ptr(), memory.len(), registers, budget, rows.as_mut_ptr(), rows.len(),
                                     input.as_ptr(), input.len(), output.as_mut_ptr(), output.len(), &mut outcome)
    };
    outcome
}

/// A shipped description: its length is asked for first, with no room for it.
fn shipped(which: u64) -> Vec<u8> {
    let mut outcome = Outcome::default();
    unsafe { guavachisel_shipped(which, std::ptr::null_mut(), 0, &mut outcome) };
    let mut text = vec![0; outcome.answer as usize];
    unsafe { guavachisel_shipped(which, text.as_mut_ptr(), text.len(), &mut outcome) };
    text
}

/// CLA CLL; TAD 0204; IAC; HLT; and the word 7777
fn image() -> [u16; WORDS] {
    let mut memory = [0; WORDS];
    memory[0o200..0o205].copy_from_slice(&[0o7300, 0o1204, 0o7001, 0o7402, 0o7777]);
    memory
}

/// KSF; JMP .-1; KRB; TLS; JMP .-4: what is typed is printed
fn echo() -> [u16; WORDS] {
    let mut memory = [0; WORDS];
    memory[0o200..0o205].copy_from_slice(&[0o6031, 0o5200, 0o6036, 0o6046, 0o5200]);
    memory
}

fn ended(outcome: &Outcome) -> &'static str {
    ["refused", "halted", "spent", "paper"][outcome.reason as usize]
}

fn printed<'a>(paper: &'a [u8], outcome: &Outcome) -> &'a str {
    std::str::from_utf8(&paper[..outcome.printed as usize]).unwrap()
}

fn listed(rows: &[u8], outcome: &Outcome) -> String {
    rows[..outcome.rows as usize].iter().map(|row| format!(" {}", row)).collect()
}

fn main() {
    assert_eq!(unsafe { guavachisel_version() }, VERSION);
    let mut memory = image();
    let mut machine = Machine { pc: 0o200, run: 1, ..Machine::default() };
    let outcome = emulate(&mut memory, &mut machine, 16);
    println!("emulate: {} steps, {}, LAC {:05o}", outcome.steps, ended(&outcome), machine.lac);

    // a refusal tells its number and the line or place, and leaves everything as it came
    machine.switches = 0o10000;
    let outcome = emulate(&mut memory, &mut machine, 16);
    if outcome.refusal == REFUSED_VALUE {
        println!("emulate: register {} has too wide a value", outcome.place);
    }

    // the shipped description's first registers are the machine's, in the same order: PC is the second, RUN the third
    let text = shipped(PLAIN);
    println!("shipped: {} bytes", text.len());
    let (mut registers, mut rows) = ([0; REGISTERS], [0; ROWS]);
    registers[..3].copy_from_slice(&[0, 0o200, 1]);
    let outcome = evaluate(&text, &mut image(), &mut registers, 16, &mut rows);
    print!("evaluate: {} cycles, {}, LAC {:05o}", outcome.steps, ended(&outcome), registers[0]);
    println!(", rows that acted last:{}", listed(&rows, &outcome));

    // count counts up, and RUN stops the run at 3; the register places that the description doesn't use hold 0
    let refused = read(b"rows\t1\nreg\tRUN\t99\n");
    println!("read: refusal {} in line {}", refused.refusal, refused.place);
    let text = b"rows\t1\nreg\tRUN\t1\nreg\tcount\t8\ndo\t1\tcount\tcount + 1\ndo\tcount Eql 3\tRUN\t0\n";
    let mut registers = [0; REGISTERS];
    registers[0] = 1;
    let outcome = evaluate(text, &mut memory, &mut registers, 100, &mut rows);
    print!("evaluate: {} cycles, {}, count {}", outcome.steps, ended(&outcome), registers[1]);
    println!(", rows that acted last:{}", listed(&rows, &outcome));

    // from place to place, and behind what was found; in a name with digits these would be found, too
    let expression = "M[#0017] Lss 15 And sorted @ '101";
    let mut start = 0;
    while start < expression.len() {
        let mut next = start + 1;
        if let Some(constant) = read_constant(expression.as_bytes(), start) {
            next = constant.after as usize;
            println!("read_constant: {} at {}, value {}, width {}", &expression[start..next], start, constant.value, constant.width);
        }
        start = next;
    }

    // the paper has room for four: the run ends when it is full, and the last byte typed stands in the keyboard
    let (mut machine, mut devices, mut paper) = (Machine { pc: 0o200, run: 1, ..Machine::default() }, Devices::default(), [0; 4]);
    let outcome = emulate_devices(&mut echo(), &mut machine, &mut devices, 1000, b"HELLO", &mut paper);
    println!("emulate_devices: {} steps, {}, {} read, printed {}", outcome.steps, ended(&outcome), outcome.read, printed(&paper, &outcome));
    let (text, mut registers) = (shipped(DEVICES), [0; REGISTERS]);
    registers[..3].copy_from_slice(&[0, 0o200, 1]);
    let outcome = evaluate_devices(&text, &mut echo(), &mut registers, 1000, &mut rows, b"HELLO", &mut paper);
    print!("evaluate_devices: {} cycles, {}, {} read, printed {}", outcome.steps, ended(&outcome), outcome.read, printed(&paper, &outcome));
    println!(", rows that acted last:{}", listed(&rows, &outcome));
}
