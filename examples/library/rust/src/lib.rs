//! Safe calls of byzlab's proved verifier and machine. They make the pointers and lengths for C from slices. So your code
//! need not obey what the header asks of a caller, except what it says about signal handlers and forked children.
use std::fmt;

/// The length of a context in bytes.
pub const CONTEXT_BYTES: usize = 4096;

/// The words that the helpers 1 to 5 read and write.
pub type Board = [u64; 64];

/// The reason why there is no answer.
#[derive(Clone, Copy, Debug, PartialEq, Eq)]
pub enum Error {
    /// The bytes are not a program: 1 to 8 for C1 to C8, and the unit.
    Misspelt { number: u32, unit: usize },
    /// The program is rejected: 101 to 113 for V1 to V13, and the unit.
    Refused { number: u32, unit: usize },
    /// Out of memory.
    Memory,
    /// The context is longer than 4,096 bytes.
    Length,
    /// The program calls this helper, which is not allowed, at this unit.
    Forbidden { number: u32, unit: usize },
    /// The object has no such program: 201 to 209, and the unit, or the index of a section or symbol.
    Object { number: u32, unit: usize },
    /// The program is longer than 4,096 units.
    Room,
}

impl fmt::Display for Error {
    fn fmt(&self, f: &mut fmt::Formatter<'_>) -> fmt::Result {
        match self {
            Error::Misspelt { number, unit } => write!(f, "C{number} unit {unit}"),
            Error::Refused { number, unit } => write!(f, "V{} unit {unit}", number - 100),
            Error::Memory => f.write_str("out of memory"),
            Error::Length => f.write_str("the context is too long"),
            Error::Forbidden { number, unit } => write!(f, "helper {number} unit {unit}"),
            Error::Object { number, unit } => write!(f, "object fault {number} at {unit}"),
            Error::Room => f.write_str("the program is too long"),
        }
    }
}

impl std::error::Error for Error {}

/// The outcome of a run: r0 at the exit, and the number of instructions that were run.
#[repr(C)]
#[derive(Clone, Copy, Debug, Default, PartialEq, Eq)]
pub struct Outcome {
    pub r0: u64,
    pub steps: u32,
}

#[repr(C)]
#[derive(Default)]
struct Fault {
    number: u32,
    unit: usize,
}

impl Fault {
    fn result<T>(&self, status: u32, value: T) -> Result<T, Error> {
        let Fault { number, unit } = *self;
        match status {
            0 => Ok(value),
            1 => Err(Error::Misspelt { number, unit }),
            2 => Err(Error::Refused { number, unit }),
            4 => Err(Error::Length),
            6 => Err(Error::Forbidden { number, unit }),
            7 => Err(Error::Object { number, unit }),
            8 => Err(Error::Room),
            _ => Err(Error::Memory),
        }
    }
}

/// A program that was verified, for any number of runs.
#[repr(C)]
pub struct Loaded {
    full: bool,
    at: *mut u8,
}

// The library proves that a loaded program may be passed to another thread.
unsafe impl Send for Loaded {}

impl Loaded {
    /// Verifies the program and loads it. It may call helper n only if bit n of `helpers` is set: 0x3e for those of the
    /// board.
    pub fn new(program: &[u8], helpers: u64) -> Result<Loaded, Error> {
        let mut fault = Fault::default();
        let mut loaded = Loaded {
            full: false,
            at: std::ptr::null_mut(),
        };
        let status = unsafe {
            byzlab_load(
                program.as_ptr(),
                program.len(),
                helpers,
                &mut loaded,
                &mut fault,
            )
        };
        fault.result(status, loaded)
    }

    /// Runs the program in a context of at most 4,096 bytes, which zeros follow; the board is left as the program left
    /// it.
    pub fn run(&mut self, context: &[u8], board: &mut Board) -> Result<Outcome, Error> {
        let mut outcome = Outcome::default();
        let status = unsafe {
            byzlab_run_loaded(
                self,
                context.as_ptr(),
                context.len(),
                board.as_mut_ptr(),
                &mut outcome,
            )
        };
        Fault::default().result(status, outcome)
    }
}

impl Drop for Loaded {
    fn drop(&mut self) {
        unsafe { byzlab_unload(self) }
    }
}

type Teller = unsafe extern "C" fn(*const u8, usize, *mut u8, usize, *mut usize, *mut Fault) -> u32;

extern "C" {
    fn byzlab_verify(program: *const u8, length: usize, fault: *mut Fault) -> u32;
    fn byzlab_run(
        program: *const u8,
        length: usize,
        context: *const u8,
        context_length: usize,
        board: *mut u64,
        fault: *mut Fault,
        outcome: *mut Outcome,
    ) -> u32;
    fn byzlab_run_many(
        program: *const u8,
        length: usize,
        contexts: *const u8,
        contexts_length: usize,
        fault: *mut Fault,
        outcomes: *mut Outcome,
        count: usize,
    ) -> u32;
    fn byzlab_load(
        program: *const u8,
        length: usize,
        helpers: u64,
        loaded: *mut Loaded,
        fault: *mut Fault,
    ) -> u32;
    fn byzlab_run_loaded(
        loaded: *mut Loaded,
        context: *const u8,
        context_length: usize,
        board: *mut u64,
        outcome: *mut Outcome,
    ) -> u32;
    fn byzlab_unload(loaded: *mut Loaded);
    fn byzlab_explain(
        program: *const u8,
        length: usize,
        text: *mut u8,
        room: usize,
        needed: *mut usize,
        fault: *mut Fault,
    ) -> u32;
    fn byzlab_disassemble(
        program: *const u8,
        length: usize,
        text: *mut u8,
        room: usize,
        needed: *mut usize,
        fault: *mut Fault,
    ) -> u32;
    fn byzlab_object(
        object: *const u8,
        length: usize,
        entry: *const u8,
        entry_length: usize,
        program: *mut u8,
        capacity: usize,
        needed: *mut usize,
        fault: *mut Fault,
    ) -> u32;
    fn byzlab_version() -> u32;
}

/// Verifies the program.
pub fn verify(program: &[u8]) -> Result<(), Error> {
    let mut fault = Fault::default();
    let status = unsafe { byzlab_verify(program.as_ptr(), program.len(), &mut fault) };
    fault.result(status, ())
}

/// Verifies the program and runs it once; the board is left as the program left it.
pub fn run(
    program: &[u8],
    context: &[u8; CONTEXT_BYTES],
    board: &mut Board,
) -> Result<Outcome, Error> {
    let (mut fault, mut outcome) = (Fault::default(), Outcome::default());
    let status = unsafe {
        byzlab_run(
            program.as_ptr(),
            program.len(),
            context.as_ptr(),
            context.len(),
            board.as_mut_ptr(),
            &mut fault,
            &mut outcome,
        )
    };
    fault.result(status, outcome)
}

/// Verifies the program once and runs it in each context, each time with a board of zeros.
pub fn run_many(program: &[u8], contexts: &[[u8; CONTEXT_BYTES]]) -> Result<Vec<Outcome>, Error> {
    let mut fault = Fault::default();
    let mut outcomes = vec![Outcome::default(); contexts.len()];
    let status = unsafe {
        byzlab_run_many(
            program.as_ptr(),
            program.len(),
            contexts.as_ptr().cast(),
            CONTEXT_BYTES * contexts.len(),
            &mut fault,
            outcomes.as_mut_ptr(),
            outcomes.len(),
        )
    };
    fault.result(status, outcomes)
}

/// Returns the text that a function writes, and its verdict. The first call asks for the length of the text.
fn told(teller: Teller, program: &[u8]) -> (String, Result<(), Error>) {
    let (mut text, mut needed, mut fault) = (Vec::new(), 0, Fault::default());
    loop {
        let room = text.len();
        let status = unsafe {
            teller(
                program.as_ptr(),
                program.len(),
                text.as_mut_ptr(),
                room,
                &mut needed,
                &mut fault,
            )
        };
        if status == 1 || status == 3 {
            return (String::new(), fault.result(status, ()));
        }
        if needed <= room {
            text.truncate(needed);
            return (
                String::from_utf8_lossy(&text).into_owned(),
                fault.result(status, ()),
            );
        }
        text.resize(needed, 0);
    }
}

/// Returns what the verifier knows at each unit, and why it rejects the program if it does, with its verdict.
pub fn explain(program: &[u8]) -> (String, Result<(), Error>) {
    told(byzlab_explain, program)
}

/// Returns the assembly text of a program, which need not be accepted.
pub fn disassemble(program: &[u8]) -> Result<String, Error> {
    let (text, verdict) = told(byzlab_disassemble, program);
    verdict.map(|()| text)
}

/// Returns the bytecode of a function of an ELF object, or of its only global function if the name is empty.
pub fn object(object: &[u8], entry: &str) -> Result<Vec<u8>, Error> {
    let (mut program, mut needed, mut fault) = (vec![0; 32_768], 0, Fault::default());
    let status = unsafe {
        byzlab_object(
            object.as_ptr(),
            object.len(),
            entry.as_ptr(),
            entry.len(),
            program.as_mut_ptr(),
            program.len(),
            &mut needed,
            &mut fault,
        )
    };
    fault.result(status, ())?;
    program.truncate(needed);
    Ok(program)
}

/// Returns 10,000 * major + 100 * minor + patch.
pub fn version() -> u32 {
    unsafe { byzlab_version() }
}
