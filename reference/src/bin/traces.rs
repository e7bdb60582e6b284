//! Holds a replay program against the reference implementation: `traces PROGRAM [inputs] [seed]`.
//!
//! Each random input is fed to the program, in pieces or whole, and what it prints is compared with the reference's
//! transcript.

use std::env;
use std::io::{self, Write};
use std::process::{ChildStdin, Command, ExitCode, Stdio};
use std::thread;

use reference::compare::hex;
use reference::generate::rng::Rng;
use reference::generate::trace::trace;
use reference::replay::transcript;

const DEFAULT_INPUTS: u64 = 2_000;
const DEFAULT_SEED: u64 = 1;
const SHOWN: u64 = 5;

/// Writes the input piece by piece. A program that has ended early has read enough.
fn feed(mut to: ChildStdin, input: &[u8], piece: usize) {
    for bytes in input.chunks(piece) {
        if to.write_all(bytes).and_then(|()| to.flush()).is_err() {
            return;
        }
    }
}

fn printed(program: &str, input: &[u8], piece: usize) -> io::Result<String> {
    let mut child = Command::new(program).stdin(Stdio::piped()).stdout(Stdio::piped()).spawn()?;
    let stdin = child.stdin.take().expect("a pipe");
    let output = thread::scope(|scope| {
        scope.spawn(|| feed(stdin, input, piece));
        child.wait_with_output()
    })?;
    Ok(String::from_utf8_lossy(&output.stdout).into_owned())
}

fn main() -> ExitCode {
    let arguments: Vec<String> = env::args().skip(1).collect();
    let number = |at: usize, default: u64| arguments.get(at).map_or(Some(default), |text| text.parse().ok());
    let (Some(program), Some(inputs), Some(seed)) =
        (arguments.first(), number(1, DEFAULT_INPUTS), number(2, DEFAULT_SEED))
    else {
        eprintln!("usage: traces PROGRAM [inputs] [seed]");
        return ExitCode::from(2);
    };
    let mut rng = Rng::new(seed);
    let (mut different, mut torn, mut answered) = (0, 0, 0);
    for index in 0..inputs {
        let input = trace(&mut rng);
        let piece = rng.pick(&[1, 7, 100, 1000, usize::MAX, usize::MAX]);
        let expected = transcript(&input);
        torn += u64::from(expected.contains("torn"));
        answered += expected.lines().count() as u64;
        let given = match printed(program, &input, piece) {
            Ok(given) => given,
            Err(error) => {
                eprintln!("{program}: {error}");
                return ExitCode::from(2);
            }
        };
        if given != expected {
            different += 1;
            if different <= SHOWN {
                println!("input {index}, seed {seed}: {given:?} instead of {expected:?}; {}", hex(&input));
            }
        }
    }
    println!("{inputs} inputs, {torn} of them torn, {answered} lines: {different} differ, seed {seed}");
    ExitCode::from(u8::from(different != 0))
}
