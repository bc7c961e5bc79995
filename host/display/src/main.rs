//! The program: shows the form of a file on the terminal until it is filled in or left, then prints what was entered.

use crossterm::tty::IsTty;
use display::entry::{Entry, Stand};
use display::form::Form;
use display::screen;
use display::terminal::{end_by, Event, Terminal};
use std::ffi::OsString;
use std::io::{self, Write};
use std::process::ExitCode;

const HELP: &str = "\
Shows an entry form on this terminal, and prints what was entered.

    tools/desk [FORM.toml]

FORM.toml has a title and 1 to 16 fields, each with a label, a pattern, a hint and
whether it is masked. With no file it is a form of three fields, which stands in
host/display/forms/component.toml.

Keys
    Enter        closes the open field, if its text is accepted
    Backspace    takes back a byte
    Ctrl-R       shows what is masked, and masks it again
    Ctrl-C       leaves the form; asks first, if something was entered
    others       a key that is one byte is judged as the next byte of the field;
                 all others are refused, and so is what comes at once behind a refused one

The texts are printed to standard output, a line for each field. Where that is a
terminal, masked fields are printed as stars.

Exit status
    0    all fields were closed
    1    the form was left
    2    the form's file or the arguments were refused, there is no terminal, or it failed
    A signal (SIGTERM, SIGHUP, SIGINT) ends the program as such, with the terminal set back:
    a shell shows 128 and the signal's number.
";

fn main() -> ExitCode {
    let result = match &arguments()[..] {
        [] => fill(Form::read(Form::USUAL)),
        [word] if word == "--help" || word == "-h" => print(HELP).map(|()| ExitCode::SUCCESS),
        [file] if !file.to_string_lossy().starts_with('-') => fill(read(file)),
        _ => Err("one form's file, --help, or nothing is wanted".to_string()),
    };
    result.unwrap_or_else(|sentence| {
        // Where this cannot be written, the status says it.
        let _ = writeln!(io::stderr(), "desk: {sentence}");
        ExitCode::from(2)
    })
}

/// The words after the program's name.
fn arguments() -> Vec<OsString> {
    std::env::args_os().skip(1).collect()
}

/// The form of a file.
fn read(file: &OsString) -> Result<Form, String> {
    let name = file.to_string_lossy();
    let text = std::fs::read_to_string(file).map_err(|error| format!("{name}: {error}"))?;
    Form::read(&text).map_err(|sentence| format!("{name}: {sentence}"))
}

/// Shows a form until it is filled in or left, and prints what was entered.
fn fill(form: Result<Form, String>) -> Result<ExitCode, String> {
    let mut entry = Entry::new(form?)?;
    let stand = show(&mut entry).map_err(|error| error.to_string())?;
    match stand {
        Stand::Filled => {
            let lines = entry.lines(!io::stdout().is_tty());
            print(&(lines.join("\n") + "\n"))?;
            Ok(ExitCode::SUCCESS)
        }
        _ => {
            let _ = writeln!(io::stderr(), "the form was left");
            Ok(ExitCode::from(1))
        }
    }
}

/// Shows an entry on the terminal until it is filled in or left. A signal ends the program here.
fn show(entry: &mut Entry) -> io::Result<Stand> {
    let mut terminal = Terminal::take()?;
    let mut bell = false;
    loop {
        let (rows, columns) = terminal.size();
        terminal.draw(&screen::lay_out(&entry.view(), rows, columns), bell)?;
        bell = false;
        match terminal.event() {
            Event::Bytes(bytes) => {
                let stand = entry.take(&bytes);
                if stand != Stand::Open {
                    return Ok(stand);
                }
                bell = entry.is_refused();
            }
            Event::Resized => (),
            Event::End => return Ok(Stand::Left),
            Event::Signal(signal) => {
                drop(terminal);
                end_by(signal)
            }
        }
    }
}

/// Writes to standard output.
fn print(text: &str) -> Result<(), String> {
    let mut out = io::stdout();
    let written = out.write_all(text.as_bytes()).and_then(|()| out.flush());
    written.map_err(|error| format!("standard output: {error}"))
}
