//! The display in a pseudo-terminal, its screen read by an emulator of a terminal.

mod counts;
mod drawn;
mod files;
mod keys;
mod leaving;
mod pastes;
mod rule;
mod sizes;
mod terminal;

use terminal::Display;

/// A screen of the usual size.
const USUAL: terminal::Size = (24, 80);

/// The path of a form of the tests.
fn form(name: &str) -> String {
    format!("{}/tests/forms/{name}.toml", env!("CARGO_MANIFEST_DIR"))
}

/// The text that is shown of a field that stands beside its label in one line, and the message.
fn shown(display: &Display, label: &str) -> (String, String) {
    let rows = display.rows();
    let line = rows
        .iter()
        .position(|row| row.get(10..).map_or(false, |row| row.starts_with(label)));
    let text = rows[line.unwrap_or_else(|| panic!("{rows:#?}"))]
        .split("  ")
        .last();
    let text = text
        .unwrap_or_default()
        .trim()
        .trim_end_matches('_')
        .to_string();
    // After the fields a blank line, the hint, which ends in a parenthesis that may be in its second line, then the message up to a blank line.
    let hint = rows
        .iter()
        .position(|row| row.starts_with("  ") && row.contains(": "));
    let end = |row: usize| match rows[row].contains('(') && !rows[row].contains(')') {
        true => row + 2,
        false => row + 1,
    };
    let below = rows.iter().skip(hint.map_or(rows.len(), end));
    let message: Vec<&str> = below
        .map(|row| row.trim())
        .take_while(|row| !row.is_empty())
        .collect();
    (text, message.join(" "))
}

#[test]
fn the_form_is_drawn() {
    let display = Display::start(&[], USUAL);
    let wanted = [
        "Entry form",
        "",
        "  open    key component  ________________________________",
        "          check value    ______",
        "          card serial    _________",
        "",
        "  key component: 32 hex digits, in capitals (at least 32 more)",
        "",
        "",
        "  Enter closes the open field, Backspace takes back a byte, Ctrl-R shows what is",
        "  masked, Ctrl-C leaves.",
    ];
    let rows = display.rows();
    assert_eq!(rows[..wanted.len()], wanted);
    assert!(
        rows[wanted.len()..].iter().all(String::is_empty),
        "{rows:#?}"
    );
    assert_eq!(display.cursor(), (2, 25));
    assert!(display.alternate());
}

#[test]
fn the_form_is_filled_in() {
    let dead = |key: &str| format!("{key} refused: no text of this field goes on this way");
    let early = |more: usize| format!("Enter refused: at least {more} more to finish");
    let none = String::new;
    let (component, check, serial) = ("0123456789ABCDEFFEDCBA9876543210", "8CA64D", "PK-004711");
    let stars = |length: usize| "*".repeat(length);
    let open =
        |label: &'static str, text: &str, message: String| (label, text.to_string(), message);
    let first = |text: &str, message| open("key component", text, message);
    let second = |text: &str, message| open("check value", text, message);
    let third = |text: &str, message| open("card serial", text, message);
    // The keys; then the open field, its text as it is shown, and the message after them.
    let rows = [
        ("0123", first(&stars(4), none())),
        ("G", first(&stars(4), dead("'G'"))),
        ("a", first(&stars(4), dead("'a'"))),
        ("4", first(&stars(5), none())),
        ("\r", first(&stars(5), early(27))),
        ("\x7F", first(&stars(4), none())),
        ("\x08", first(&stars(3), none())),
        (" ", first(&stars(3), dead("Space"))),
        ("\x01", first(&stars(3), dead("Ctrl-A"))),
        ("\x12", first(&component[..3], none())),
        (&component[3..31], first(&component[..31], none())),
        ("\r", first(&component[..31], early(1))),
        ("0", first(component, none())),
        ("0", first(component, dead("'0'"))),
        ("\x12", first(&stars(32), none())),
        ("\r", second("", none())),
        // A closed field is not opened again.
        ("\x7F\x7F", second("", none())),
        ("8CA64", second("8CA64", none())),
        ("\r", second("8CA64", early(1))),
        ("D", second(check, none())),
        ("\r", third("", none())),
        ("P", third("P", none())),
        ("-", third("P", dead("'-'"))),
        ("K", third("PK", none())),
        ("4", third("PK", dead("'4'"))),
        ("-004711", third(serial, none())),
    ];
    for to_terminal in [true, false] {
        let (reader, output) = output(to_terminal);
        let mut display = Display::run(terminal::program(&[]), USUAL, output);
        display.drawn();
        let (mut bells, mut field) = (0, 0_u16);
        for (keys, (label, text, message)) in &rows {
            display.key(keys.as_bytes());
            let wanted = (text.clone(), message.clone());
            assert_eq!(shown(&display, label), wanted, "after {keys:?}");
            bells += usize::from(message.contains("refused"));
            assert_eq!(display.bells(), bells, "after {keys:?}");
            field += u16::from(*keys == "\r" && message.is_empty());
            let column = 25 + text.len();
            assert_eq!(
                display.cursor(),
                (2 + field, column as u16),
                "after {keys:?}"
            );
        }
        display.send(b"\r");
        let (status, screen) = display.ended();
        assert_eq!(status.code(), Some(0));
        let printed = match reader {
            None => screen[..3].join("\n") + "\n",
            Some(mut reader) => {
                let mut printed = String::new();
                std::io::Read::read_to_string(&mut reader, &mut printed).unwrap();
                printed
            }
        };
        let component = if to_terminal {
            stars(32)
        } else {
            component.to_string()
        };
        let lines = [
            ("key component", &component[..]),
            ("check value  ", check),
            ("card serial  ", serial),
        ];
        let lines: String = lines
            .iter()
            .map(|(label, text)| format!("{label}  {text}\n"))
            .collect();
        assert_eq!(printed, lines);
    }
}

/// Where standard output goes: to the terminal, or to a file that is then read.
fn output(to_terminal: bool) -> (Option<std::fs::File>, Option<std::process::Stdio>) {
    if to_terminal {
        return (None, None);
    }
    let path = std::env::temp_dir().join(format!("display-{}", std::process::id()));
    let file = std::fs::File::create(&path).unwrap();
    let reader = std::fs::File::open(&path).unwrap();
    std::fs::remove_file(path).unwrap();
    (Some(reader), Some(file.into()))
}
