//! Compares the proved library with the oracle, an independent station, on the same calls: answers, record
//! bytes, every lent byte and the guard bytes around them.

mod arena;
mod cable;
mod call;
mod chance;
mod choices;
mod compare;
mod coverage;
mod crash;
mod damaged_frames;
mod damaged_records;
mod far;
mod fitting;
mod flags;
mod flow;
mod founding;
mod frames;
mod history;
mod layout;
mod pass;
mod seen;
mod show;
mod shrink;
mod sides;
mod simplify;
mod tester;
mod whole;

use std::process::ExitCode;

fn main() -> ExitCode {
    let flags = match flags::read(std::env::args().skip(1)) {
        Ok(flags) => flags,
        Err(message) => {
            eprintln!("compare: {message}\n{}", flags::USAGE);
            return ExitCode::from(2);
        }
    };
    crash::show_panics();
    match layout::check().and_then(|()| pass::run(&flags)) {
        Ok(line) => {
            println!("compare: {line}");
            ExitCode::SUCCESS
        }
        Err(message) => {
            println!("compare: FAILED: {message}");
            ExitCode::FAILURE
        }
    }
}
