//! Screens of other sizes.

use crate::form;
use crate::terminal::Display;
use display::screen::{lay_out, Mark, Shown, View};

#[test]
fn a_small_screen_shows_the_open_field() {
    let mut display = Display::start(&[&form("hex")], (4, 20));
    let rows: [(&[u8], [&str; 4], (u16, u16)); 7] = [
        (
            b"01",
            ["open component", "01______________", "secret", ""],
            (1, 2),
        ),
        (
            b"G",
            [
                "open component",
                "01______________",
                "'G' refused: no text",
                "of this field goes..",
            ],
            (1, 2),
        ),
        (
            b"\r",
            [
                "open component",
                "01______________",
                "Enter refused: at",
                "least 14 more to..",
            ],
            (1, 2),
        ),
        (
            b"23456789ABCDEF",
            ["open component", "0123456789ABCDEF", "secret", ""],
            (1, 16),
        ),
        (
            b"\r",
            ["closed component", "0123456789ABCDEF", "open secret", ""],
            (3, 0),
        ),
        (
            &[b'A'; 19],
            [
                "closed component",
                "0123456789ABCDEF",
                "open secret",
                "*******************",
            ],
            (3, 19),
        ),
        (
            b"B",
            [
                "0123456789ABCDEF",
                "open secret",
                "********************",
                "",
            ],
            (3, 0),
        ),
    ];
    for (bytes, rows, cursor) in rows {
        display.key(bytes);
        assert_eq!(
            (display.rows(), display.cursor()),
            (rows.map(str::to_string).to_vec(), cursor)
        );
    }
    // Drawn anew at another size.
    display.resize((10, 60));
    let wanted = [
        "Two fields",
        "",
        "  closed  component  0123456789ABCDEF",
        "  open    secret     ********************",
        "",
        "  secret: hex digits",
        "",
        "",
        "  Enter closes the open field, Backspace takes back a byte,",
        "  Ctrl-R shows what is masked, Ctrl-C leaves.",
    ];
    assert_eq!(
        (display.rows(), display.cursor()),
        (wanted.map(str::to_string).to_vec(), (3, 41))
    );
    display.resize((3, 12));
    display.resize((1, 1));
    display.resize((24, 80));
    assert_eq!(display.cursor(), (3, 41));
}

#[test]
fn on_forty_columns_the_cursor_stands_in_its_field() {
    let mut display = Display::start(&[], (6, 40));
    display.key(b"0123\x12");
    assert_eq!(
        display.rows()[..2],
        ["open key component", "0123____________________________"]
    );
    assert_eq!(display.cursor(), (1, 4));
    display.key(b"456789ABCDEFFEDCBA9876543210");
    display.key(b"\r");
    let rows = display.rows();
    assert_eq!(rows[usize::from(display.cursor().0)], "______", "{rows:#?}");
    assert_eq!(
        rows[usize::from(display.cursor().0) - 1],
        "open check value"
    );
}

#[test]
fn every_size_has_the_cursor_behind_the_text() {
    let field = |mark, label: &str, length: usize, more| Shown {
        mark,
        label: label.to_string(),
        text: "x".repeat(length),
        more,
    };
    for (rows, columns) in (1..=30).flat_map(|rows| (1..=100).map(move |columns| (rows, columns))) {
        for length in [0, 1, 19, 20, 21, 63, 128] {
            for more in [0, 5] {
                let view = View {
                    title: "A form of some fields".to_string(),
                    fields: vec![
                        field(Mark::Closed, "Schlüssel 鍵", 32, 0),
                        field(Mark::Open, "remark", length, more),
                        field(Mark::Later, "check value", 0, 6),
                    ],
                    hint: "remark: anything that can be typed".to_string(),
                    message: "'G' refused: no text of this field goes on this way".to_string(),
                    help: "Enter closes the open field, Ctrl-C leaves.".to_string(),
                };
                let drawing = lay_out(&view, rows, columns);
                let seen = format!("{rows} rows, {columns} columns: {drawing:#?}");
                assert_eq!(drawing.lines.len(), usize::from(rows), "{seen}");
                let (row, column) = drawing.cursor;
                assert!(row < rows && column < columns, "{seen}");
                let wide = |line: &String| unicode_width::UnicodeWidthStr::width(&line[..]);
                if columns >= 20 {
                    assert!(
                        drawing
                            .lines
                            .iter()
                            .all(|line| wide(line) <= usize::from(columns)),
                        "{seen}"
                    );
                }
                let line = &drawing.lines[usize::from(row)];
                let (before, behind) = line.split_at(line.len().min(usize::from(column)));
                // Where the text fills its lines, the cursor is at the beginning of the next.
                let full = || row == 0 || drawing.lines[usize::from(row) - 1].ends_with('x');
                let begins = before.trim().is_empty() && full();
                assert!(length == 0 || before.ends_with('x') || begins, "{seen}");
                assert!(behind.chars().all(|character| character == '_'), "{seen}");
                assert!(more == 0 || behind.starts_with('_'), "{seen}");
                // With four rows the message is seen too.
                assert!(
                    rows < 4
                        || columns < 20
                        || drawing
                            .lines
                            .iter()
                            .any(|line| line.contains("'G' refused")),
                    "{seen}"
                );
            }
        }
    }
}
