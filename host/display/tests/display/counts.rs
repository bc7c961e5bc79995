//! How many bytes more the open field wants at least: in its hint, and where Enter is refused.

use crate::form;
use crate::terminal::Display;

/// The hint and the message, each on a line of its own.
fn said(display: &Display) -> [String; 2] {
    let rows = display.rows();
    let hint = rows.iter().position(|row| row.contains(": "));
    let hint = hint.unwrap_or_else(|| panic!("{rows:#?}"));
    [&rows[hint], &rows[hint + 1]].map(|row| row.trim().to_string())
}

#[test]
fn the_open_field_says_how_many_bytes_more() {
    let dead = "'b' refused: no text of this field goes on this way";
    let full = "'a' refused: a field has at most 128 bytes";
    let many = "a".repeat(125);
    // The keys; then the hint and the message.
    let rows = [
        ("a", "jump: abcd or b (at least 3 more)", ""),
        (
            "\r",
            "jump: abcd or b (at least 3 more; 1 key refused)",
            "Enter refused: at least 3 more to finish",
        ),
        (
            "\x7F",
            "jump: abcd or b (at least 1 more; 1 key refused)",
            "",
        ),
        ("b", "jump: abcd or b (1 key refused)", ""),
        ("\r", "free: any number of a", ""),
        ("b", "free: any number of a (1 key refused)", dead),
        ("a", "free: any number of a (1 key refused)", ""),
        ("\r", "threes: a, three at a time", ""),
        ("a", "threes: a, three at a time (at least 2 more)", ""),
        (&many, "threes: a, three at a time", ""),
        // Of 128 bytes 127 are there.
        (
            "a",
            "threes: a, three at a time (at least 2 more, but room for only 1)",
            "",
        ),
        (
            "\r",
            "threes: a, three at a time (at least 2 more, but room for only 1; 1 key refused)",
            "Enter refused: at least 2 more to finish, but room for only 1",
        ),
        (
            "a",
            "threes: a, three at a time (at least 1 more, but room for none; 1 key refused)",
            "",
        ),
        (
            "a",
            "threes: a, three at a time (at least 1 more, but room for none; 2 keys refused)",
            full,
        ),
        (
            "\x7F\x7F",
            "threes: a, three at a time (2 keys refused)",
            "",
        ),
        ("\r", "secret: two digits (at least 2 more)", ""),
        ("4", "secret: two digits (at least 1 more)", ""),
        ("2", "secret: two digits", ""),
        ("\r", "never: nothing (no text is accepted)", ""),
        (
            "\r",
            "never: nothing (no text is accepted; 1 key refused)",
            "Enter refused: no text is accepted",
        ),
    ];
    let mut display = Display::start(&[&form("counts")], (24, 120));
    assert_eq!(
        said(&display),
        ["jump: abcd or b (at least 1 more)", ""].map(str::to_string)
    );
    for (keys, hint, message) in rows {
        display.key(keys.as_bytes());
        assert_eq!(
            said(&display),
            [hint, message].map(str::to_string),
            "after {keys:?}"
        );
    }
}
