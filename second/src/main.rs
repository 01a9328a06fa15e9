use std::process::ExitCode;

fn main() -> ExitCode {
    let given: Vec<_> = std::env::args_os().skip(1).collect();
    let words: Vec<_> = given.iter().map(|argument| argument.to_string_lossy()).collect();
    let arguments: Vec<&str> = words.iter().map(|word| &**word).collect();
    match second::commands::main(&arguments) {
        Ok(true) => ExitCode::SUCCESS,
        Ok(false) => ExitCode::FAILURE,
        Err(error) => {
            eprintln!("second: {error}");
            ExitCode::FAILURE
        }
    }
}
