//! How a form is left, and how the terminal is then.

use crate::terminal::{program, Display};
use crate::{form, shown, USUAL};
use std::os::unix::process::ExitStatusExt;
use std::process::{Command, Stdio};

/// Presses Ctrl-C, after which the form must have been left, with nothing else on the screen.
fn leave(mut display: Display) {
    display.send(b"\x03");
    let (status, rows) = display.ended();
    assert_eq!(status.code(), Some(1));
    assert_eq!(rows[0], "the form was left");
    assert!(rows[1..].iter().all(String::is_empty), "{rows:#?}");
}

#[test]
fn ctrl_c_asks_once_if_something_was_entered() {
    let mut display = Display::start(&[&form("hex")], USUAL);
    display.key(b"\x1B[A");
    leave(display);

    let asks = "Ctrl-C again leaves the form and drops what was entered; any other key goes on";
    // Twice at once it asks too: nobody could have seen the question.
    let rows = [
        ("0", "0", ""),
        ("\x03", "0", asks),
        ("1", "01", ""),
        ("\x03\x03", "01", asks),
        ("2", "012", ""),
        ("\x03", "012", asks),
    ];
    let mut display = Display::start(&[&form("hex")], USUAL);
    for (bytes, text, message) in rows {
        display.key(bytes.as_bytes());
        let wanted = (text.to_string(), message.to_string());
        assert_eq!(shown(&display, "component"), wanted);
    }
    leave(display);
}

#[test]
fn what_is_typed_ahead_is_not_for_the_form() {
    let display = program(&[&form("remark")]);
    let mut late = Command::new("sh");
    late.args(["-c", "sleep 0.5; exec \"$0\" \"$@\""]);
    late.arg(display.get_program()).args(display.get_args());
    let mut display = Display::run(late, USUAL, None);
    display.send(b"0123\r4567");
    display.drawn();
    assert_eq!(shown(&display, "digits").0, "digits");
    display.key(b"89");
    assert_eq!(shown(&display, "digits").0, "89");
}

#[test]
fn signals_end_it_with_the_terminal_set_back() {
    for signal in [libc::SIGTERM, libc::SIGHUP, libc::SIGINT] {
        let mut display = Display::start(&[&form("hex")], USUAL);
        display.key(b"0123");
        display.signal(signal);
        assert_eq!(display.ended().0.signal(), Some(signal));
    }
    // A hang-up is a signal, and the end of the bytes too: one of the two is seen first.
    let mut display = Display::start(&[&form("hex")], USUAL);
    display.key(b"0123");
    let status = display.hung_up();
    assert!(
        status.code() == Some(1) || status.signal() == Some(libc::SIGHUP),
        "{status}"
    );
}

#[test]
fn a_panic_sets_the_terminal_back() {
    let tests = std::env::current_exe().unwrap();
    let runner = std::env::var("CARGO_TARGET_X86_64_UNKNOWN_LINUX_GNU_RUNNER").unwrap_or_default();
    let mut words = runner
        .split_whitespace()
        .map(Into::into)
        .chain([tests.into_os_string()]);
    let mut command = Command::new(words.next().unwrap());
    command
        .args(words)
        .args(["--ignored", "--exact", "leaving::panics", "--nocapture"]);
    let mut display = Display::run(command, USUAL, None);
    display.until(|screen| screen.contents().contains("taken"));
    assert!(display.alternate());
    display.send(b"x");
    let (status, rows) = display.ended();
    assert_eq!(status.code(), Some(101));
    assert!(
        rows.iter()
            .any(|row| row.contains("a panic with the terminal taken")),
        "{rows:#?}"
    );
}

#[test]
#[ignore = "run in a terminal by the test above"]
fn panics() {
    let mut terminal = display::terminal::Terminal::take().unwrap();
    let drawing = display::screen::Drawing {
        lines: vec!["taken".to_string()],
        cursor: (0, 0),
    };
    terminal.draw(&drawing, false).unwrap();
    terminal.event();
    panic!("a panic with the terminal taken");
}

#[test]
fn without_a_terminal_there_is_no_form() {
    let mut command = program(&[]);
    let output = command.stdin(Stdio::null()).output().unwrap();
    let error = String::from_utf8(output.stderr).unwrap();
    let wanted = (
        Some(2),
        "desk: standard input must be a terminal\n".to_string(),
    );
    assert_eq!((output.status.code(), error), wanted);
    assert!(output.stdout.is_empty());
}
