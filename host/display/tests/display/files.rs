//! Forms from files, and the arguments.

use crate::terminal::{program, Display};
use crate::{form, USUAL};
use std::process::Stdio;

/// A form of one field that is right.
const RIGHT: &str = "title = 'T'

[[field]]
label = 'check value'
pattern = '[0-9]*'
hint = 'digits'
masked = false
";

/// What the program says of a form, where it shows none, with its exit status.
fn said(text: &str) -> (Option<i32>, String) {
    static NUMBER: std::sync::atomic::AtomicUsize = std::sync::atomic::AtomicUsize::new(0);
    let number = NUMBER.fetch_add(1, std::sync::atomic::Ordering::SeqCst);
    let path = std::env::temp_dir().join(format!("form-{}-{number}.toml", std::process::id()));
    std::fs::write(&path, text).unwrap();
    let mut command = program(&[path.to_str().unwrap()]);
    let output = command.stdin(Stdio::null()).output().unwrap();
    std::fs::remove_file(&path).unwrap();
    let error = String::from_utf8(output.stderr).unwrap();
    assert!(output.stdout.is_empty());
    (
        output.status.code(),
        error.replace(path.to_str().unwrap(), "FORM"),
    )
}

#[test]
fn a_wrong_form_is_refused_with_its_place() {
    let field = &RIGHT[RIGHT.find("[[").unwrap()..];
    let many = |count: usize| "title = 'T'\n".to_string() + &field.repeat(count);
    let other = |from: &str, to: &str| RIGHT.replace(from, to);
    let pattern = |pattern: &str| other("[0-9]*", pattern);
    let refused = |shown: &str, place: usize, reason: &str| {
        let first = "the pattern of field 1 (check value) is refused";
        format!("{first}\n{shown}\n{:place$}^ {reason}", "")
    };
    let line = |sentence: &str| format!("FORM: {sentence}");
    let (early, never) = (
        "the pattern ends before its expression does",
        "no expression goes on this way here",
    );
    let range = "the low end of this range is above its high end";
    let (a, c) = ("a".repeat(50), "c".repeat(50));
    // The form, and what is said of it.
    let rows = [
        (many(1), "standard input must be a terminal".to_string()),
        (many(16), "standard input must be a terminal".to_string()),
        (many(17), "a form has 1 to 16 fields, not 17".to_string()),
        (
            "title = 'T'\nfield = []\n".to_string(),
            "a form has 1 to 16 fields, not 0".to_string(),
        ),
        (
            other("'T'", "'T'\nwidth = 3"),
            line("unknown entry `width` at line 2"),
        ),
        (
            other("hint", "width = 3\nhint"),
            line("unknown entry `width` at line 6"),
        ),
        (
            many(2) + "lable = 'x'\n",
            line("unknown entry `lable` at line 12"),
        ),
        (
            many(1) + "[fields]\n",
            line("unknown entry `fields` at line 7"),
        ),
        (
            other("masked = false\n", ""),
            line("missing field `masked` for key `field` at line 3 column 1"),
        ),
        (
            other("false", "1"),
            line("invalid type: integer `1`, expected a boolean for key `field.masked` at line 7 column 10"),
        ),
        (
            other("'digits'", "'digits"),
            line("newline in string found at line 6 column 15"),
        ),
        (
            other("'digits'", "\"\\u001B[2J\""),
            line("the hint \"\\u{1b}[2J\" has a control character"),
        ),
        (other("'T'", "' '"), line("a title is empty")),
        (other("'check value'", "''"), line("a label is empty")),
        (pattern("[0-9"), refused("[0-9", 4, early)),
        (pattern("ab|[z-a]"), refused("ab|[z-a]", 5, range)),
        (pattern("[0-9]+|?"), refused("[0-9]+|?", 7, never)),
        // Of a long pattern what is near to the place.
        (
            pattern(&format!("{a}(b{c}")),
            refused(&format!("..{}", &c[..36]), 38, early),
        ),
        (
            pattern(&format!("{a})b{c}")),
            refused(&format!("..{})b{}..", &a[..36], &c[..34]), 38, never),
        ),
    ];
    for (text, wanted) in rows {
        assert_eq!(
            said(&text),
            (Some(2), format!("desk: {wanted}\n")),
            "{text}"
        );
    }
}

#[test]
fn a_form_is_shown_as_its_file_says() {
    let mut display = Display::start(&[&form("remark")], USUAL);
    assert_eq!(display.rows()[0], "Remarks");
    assert_eq!(display.rows()[5], "  digits: any number of hex digits");
    display.key(b"\r");
    assert_eq!(display.rows()[5], "  remark: one line of text");
    // Bytes that are not printed as they are.
    display.key(b"a\\ \x01~");
    assert_eq!(display.rows()[3], "  open    remark  a\\\\ \\x01~");
    assert_eq!(display.cursor(), (3, 27));
    display.send(b"\r");
    let (status, rows) = display.ended();
    assert_eq!(status.code(), Some(0));
    assert_eq!(rows[..2], ["digits", "remark  a\\\\ \\x01~"]);
}

#[test]
fn arguments() {
    let run = |arguments: &[&str]| {
        let output = program(arguments).stdin(Stdio::null()).output().unwrap();
        let text = |bytes| String::from_utf8(bytes).unwrap();
        (
            output.status.code(),
            text(output.stdout),
            text(output.stderr),
        )
    };
    for help in ["--help", "-h"] {
        let (status, out, error) = run(&[help]);
        assert_eq!((status, &error[..]), (Some(0), ""));
        assert!(out.starts_with("Shows an entry form on this terminal"));
        // Every exit status stands there.
        assert!(["    0 ", "    1 ", "    2 "]
            .iter()
            .all(|status| out.contains(status)));
    }
    let sentence = "desk: one form's file, --help, or nothing is wanted\n".to_string();
    for words in [&["--version"][..], &["a", "b"], &["--help", "x"]] {
        assert_eq!(run(words), (Some(2), String::new(), sentence.clone()));
    }
    let (status, _, error) = run(&["no/such/form.toml"]);
    assert_eq!(status, Some(2));
    assert!(
        error.starts_with("desk: no/such/form.toml: No such file"),
        "{error}"
    );
}
