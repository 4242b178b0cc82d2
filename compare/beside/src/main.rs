//! Runs the calls of the program `trials` on pliron's own store and rewriter, one a line, and prints what each answers.
//!
//! The form is that of `trials`. A line on which pliron panics is answered with `panics`; where the panic may have left
//! something half done, the lines behind it up to the next `new` are answered with `spoiled` and not run.
mod bench;
mod calls;
mod kinds;
mod show;
mod words;

use crate::bench::Bench;
use crate::words::word;
use std::io::{Read, Write};
use std::panic::{AssertUnwindSafe, catch_unwind, set_hook};

fn main() {
    // The message of a panic is of no use here, and making its text could panic again.
    set_hook(Box::new(|_| {}));
    let mut text = String::new();
    std::io::stdin().read_to_string(&mut text).expect("the calls are no text");
    let mut out = std::io::BufWriter::new(std::io::stdout());
    let mut bench = Bench::new();
    let mut spoiled = false;
    for line in text.lines() {
        let first = word(line, 0);
        if first == "new" {
            bench = Bench::new();
            spoiled = false;
            writeln!(out, "new").unwrap();
        } else if first == "look" {
            // Not a call of `trials`: all that can be seen, also where the scene is spoiled.
            writeln!(out, "look: {}", show::look(&bench)).unwrap();
        } else if !first.is_empty() && !first.starts_with('#') {
            let answer = if spoiled {
                "spoiled".to_string()
            } else {
                match catch_unwind(AssertUnwindSafe(|| calls::run(&mut bench, line))) {
                    Ok(answer) => answer,
                    Err(_) => {
                        spoiled = calls::changes(first);
                        "panics".to_string()
                    }
                }
            };
            writeln!(out, "{line}: {answer}").unwrap();
            // What was answered is told even where the next line ends the program.
            out.flush().unwrap();
        }
    }
}
