//! Verifies a program, runs it once and many times, loads it, and explains a program that is rejected. Disassembles the
//! function whose object and name are the words, if there are words.
use byzlab_sandbox::{
    disassemble, explain, object, run, run_many, verify, version, Error, Loaded, CONTEXT_BYTES,
};

const ANSWER: [u8; 16] = [0xb7, 0, 0, 0, 42, 0, 0, 0, 0x95, 0, 0, 0, 0, 0, 0, 0];
/// r0 = the context's first byte; exit
const FIRST: [u8; 16] = [0x71, 0x10, 0, 0, 0, 0, 0, 0, 0x95, 0, 0, 0, 0, 0, 0, 0];
/// r0 = r2, which nothing has set; exit
const UNSET: [u8; 16] = [0xbf, 0x20, 0, 0, 0, 0, 0, 0, 0x95, 0, 0, 0, 0, 0, 0, 0];

fn main() -> Result<(), Error> {
    println!("version {}", version());
    verify(&ANSWER)?;
    let outcome = run(&ANSWER, &[0; CONTEXT_BYTES], &mut [0; 64])?;
    println!("r0 {} steps {}", outcome.r0, outcome.steps);
    let mut contexts = vec![[0; CONTEXT_BYTES]; 3];
    for (context, byte) in contexts.iter_mut().zip([7, 0, 255]) {
        context[0] = byte;
    }
    let each: Vec<u64> = run_many(&FIRST, &contexts)?
        .iter()
        .map(|outcome| outcome.r0)
        .collect();
    println!("r0 {each:?}");
    let mut first = Loaded::new(&FIRST, 0)?;
    let other = std::thread::spawn(move || first.run(&[9], &mut [0; 64]));
    let r0 = other.join().map(|run| run.map(|outcome| outcome.r0));
    println!("loaded: {r0:?}");
    let (text, verdict) = explain(&UNSET);
    if let Err(error) = verdict {
        println!("{text}\nrefused {error}");
    }
    print!("{}", disassemble(&UNSET)?);
    println!("{:?}", verify(&ANSWER[..15]));
    let words: Vec<String> = std::env::args().collect();
    if let [_, path, entry] = &words[..] {
        let bytes = std::fs::read(path).unwrap_or_default();
        println!("{entry}: {:?}", object(&bytes, entry).and_then(|code| disassemble(&code)));
    }
    Ok(())
}
