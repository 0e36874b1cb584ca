//! Yorvuste from Rust.
//!
//!     example < BUNDLE           prints what rollcheck prints of a bundle
//!     example PATTERN TEXT       of two files: prints the pattern's places, and what the text comes to under it
mod yorvuste;

use std::io::{self, Read};
use std::process::ExitCode;
use yorvuste::{Fault, check, judge, read};

fn tell(pattern: &[u8], text: &[u8]) -> Result<(), Fault> {
    println!("places {}", read(pattern)?);
    let judgement = judge(pattern, text)?;
    let verdict = if judgement.verdict { "yes" } else { "no" };
    println!("verdict {verdict}\nbytes {}\nlines {}", judgement.bytes, judgement.lines);
    Ok(())
}

fn main() -> io::Result<ExitCode> {
    let words: Vec<_> = std::env::args_os().skip(1).collect();
    match words.as_slice() {
        [] => {
            let mut bundle = Vec::new();
            io::stdin().read_to_end(&mut bundle)?;
            println!("{}", check(&bundle));
        }
        [pattern, text] => {
            if let Err(fault) = tell(&std::fs::read(pattern)?, &std::fs::read(text)?) {
                println!("{fault}");
            }
        }
        _ => {
            eprintln!("usage: example [PATTERN TEXT]");
            return Ok(ExitCode::from(2));
        }
    }
    Ok(ExitCode::SUCCESS)
}
