//! The command line over the proved library.

mod arguments;
mod check;
mod convert;
mod crew;
mod failure;
mod help;
mod input;
mod join;
mod output;
mod places;
mod progress;
mod recording;
mod reduce;
mod replay;
mod results;

use failure::Failure;
use std::env;
use std::ffi::OsString;
use std::io::Write;
use std::process::ExitCode;

fn main() -> ExitCode {
    let mut arguments = env::args_os().skip(1);
    let command = arguments.next();
    let rest: Vec<OsString> = arguments.collect();
    match dispatch(command, &rest) {
        Ok(status) => ExitCode::from(status),
        Err(failure) => {
            eprintln!("{failure}");
            ExitCode::from(failure.status())
        }
    }
}

/// Runs one command; answers the exit status if the command has already
/// said what there was to say.
fn dispatch(command: Option<OsString>, rest: &[OsString]) -> Result<u8, Failure> {
    let name = command.as_deref().map(|name| name.to_string_lossy());
    let name = name.as_deref().unwrap_or_default();
    if name == "help" || name == "--help" || name == "-h" {
        return say(help::TOOL);
    }
    let Some(command) = help::COMMANDS.iter().find(|command| command.name == name) else {
        let reason = match name {
            "" => "no command given".to_string(),
            _ => format!("no command `{name}`"),
        };
        return Err(Failure::Usage(format!(
            "{reason}; `shkembruq --help` lists them"
        )));
    };
    if arguments::ask_for_help(rest) {
        return say(command.help);
    }
    (command.run)(rest).map_err(|failure| failure.in_command(name))
}

fn say(text: &str) -> Result<u8, Failure> {
    std::io::stdout()
        .write_all(text.as_bytes())
        .map_err(|error| Failure::broken("standard output", error))?;
    Ok(0)
}
