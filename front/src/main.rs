//! `mrkvandel`: reads, rewrites, searches and judges streams of troff intermediate output, by the
//! proved library. `--help` says how it is used.

mod alphabet;
mod answers;
mod args;
mod check;
mod families;
mod files;
mod help;
mod json;
mod letters;
mod output;
mod printer;
mod reasons;
mod run;
mod shorthand;
mod standard;
mod text;

use std::process::ExitCode;

fn main() -> ExitCode {
    let arguments = std::env::args_os().skip(1).collect();
    ExitCode::from(run::run(arguments))
}
