//! The command `rikzord`; `rikzord --help` says what it does.

use std::io::IsTerminal;
use std::process::ExitCode;

fn main() -> ExitCode {
    let arguments: Result<Vec<String>, _> = std::env::args_os().skip(1).map(|argument| argument.into_string()).collect();
    let Ok(arguments) = arguments else {
        eprintln!("rikzord: an argument is not in UTF-8");
        return ExitCode::from(command::WRONG_USAGE);
    };
    let (input, output) = (std::io::stdin(), std::io::stdout());
    let interactive = input.is_terminal() && output.is_terminal();
    let mut terminal = command::Terminal { interactive, input: &mut input.lock(), output: &mut std::io::BufWriter::new(output.lock()) };
    ExitCode::from(command::run(&arguments, &mut terminal, &mut std::io::stderr()))
}
