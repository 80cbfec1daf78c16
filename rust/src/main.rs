//! The command `sise`; `sise --help` says what it does.

#![forbid(unsafe_code)]

mod command;

fn main() -> std::process::ExitCode {
    command::main(std::env::args_os().skip(1))
}
