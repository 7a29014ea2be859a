//! The command-line tool: `tinladle --help`.

mod cli;
mod counted;

fn main() -> std::process::ExitCode {
    cli::run(std::env::args_os().skip(1).collect())
}
