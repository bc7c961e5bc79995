//! The screen: what is shown of a form, laid out for a terminal of any size.
//!
//! From 20 columns and 4 rows on, the line of the cursor is on the screen, and with it as much of the rest as there is
//! room for: first the message, then the open field, then the other fields, the hint, the title and the keys. Below
//! that size it is still drawn, but not all of it may be there.

use unicode_width::{UnicodeWidthChar, UnicodeWidthStr};

/// What is shown.
pub struct View {
    /// What stands above the fields.
    pub title: String,
    /// The fields, in their order.
    pub fields: Vec<Shown>,
    /// What the open field wants.
    pub hint: String,
    /// What is said of the last key.
    pub message: String,
    /// The keys.
    pub help: String,
}

/// A field, as it is shown.
pub struct Shown {
    /// Whether it is open, closed or neither so far.
    pub mark: Mark,
    /// What it is called.
    pub label: String,
    /// Its text, as it is printed or masked: ASCII.
    pub text: String,
    /// So many bytes more it wants at least.
    pub more: usize,
}

/// How a field stands.
#[derive(Clone, Copy, PartialEq, Eq, Debug)]
pub enum Mark {
    /// It is closed.
    Closed,
    /// It is open: keys go to it.
    Open,
    /// It comes later.
    Later,
}

/// The lines of a screen, from its top, and where the cursor is: row and column, from 0.
#[derive(Clone, PartialEq, Eq, Debug)]
pub struct Drawing {
    /// The lines, one for each row, none wider than the screen.
    pub lines: Vec<String>,
    /// Row and column of the cursor.
    pub cursor: (u16, u16),
}

/// At least so many columns for the text beside the label; or else it has lines of its own below.
const TEXT_COLUMNS: usize = 24;

/// Below so many columns nothing is set in from the left.
const SET_IN: usize = 40;

/// Lays out what is shown for a screen of so many rows and columns.
pub fn lay_out(view: &View, rows: u16, columns: u16) -> Drawing {
    let (rows, columns) = (usize::from(rows).max(1), usize::from(columns).max(1));
    let fields = Fields::new(&view.fields, columns);
    let indent = if columns < SET_IN { "" } else { "  " };
    let below = |text: &str| {
        let lines = wrap(text, columns - indent.len()).into_iter();
        lines.map(|line| format!("{indent}{line}"))
    };
    let blank = || std::iter::once(String::new());
    let title = wrap(&view.title, columns).into_iter().chain(blank());
    let hint = blank().chain(below(&view.hint));
    let help = blank().chain(below(&view.help));
    let mut message: Vec<String> = below(&view.message).collect();
    // Where there is room, the line of the message is kept for it.
    if message.is_empty() {
        message.push(String::new());
    }

    // What does not fit goes, the least needed first.
    let mut parts = [title.collect(), hint.collect(), message, help.collect()];
    let count = |parts: &[Vec<String>; 4]| parts.iter().map(Vec::len).sum::<usize>();
    for (least, may_go) in [
        (3, true),
        (0, true),
        (1, true),
        (2, view.message.is_empty()),
    ] {
        if may_go && fields.lines.len() + count(&parts) > rows {
            parts[least].clear();
        }
    }
    // The cursor's line stays beside the message, and with three rows or more another one of the open field.
    let most = rows - if rows > 2 { 2 } else { 1 };
    parts[2] = cut(std::mem::take(&mut parts[2]), most, columns);
    let (begin, end) = fields.window(rows - count(&parts));

    let [title, hint, message, help] = parts;
    let row = title.len() + fields.cursor.0 - begin;
    let mut lines = title;
    lines.extend_from_slice(&fields.lines[begin..end]);
    lines.extend(hint.into_iter().chain(message).chain(help));
    lines.resize(rows, String::new());
    Drawing {
        lines,
        cursor: (small(row), small(fields.cursor.1)),
    }
}

/// The lines of the fields, those of the open one among them, and where the cursor is.
struct Fields {
    lines: Vec<String>,
    open: (usize, usize),
    cursor: (usize, usize),
}

impl Fields {
    /// The lines for so many columns. The text stands beside the label where there is room, or else in lines of its
    /// own below; either way it goes on in further lines.
    fn new(shown: &[Shown], columns: usize) -> Fields {
        let widest = shown.iter().map(|field| field.label.width()).max();
        let beside = 2 + 6 + 2 + widest.unwrap_or(0) + 2;
        let wide = columns >= beside + TEXT_COLUMNS;
        let indent = if wide { beside } else { 0 };
        let mut fields = Fields {
            lines: Vec::new(),
            open: (0, 0),
            cursor: (0, 0),
        };
        for field in shown {
            let begin = fields.lines.len();
            let Shown { label, text, .. } = field;
            let mark = match field.mark {
                Mark::Closed => "closed",
                Mark::Open => "open",
                Mark::Later => "",
            };
            let label = if wide {
                let gap = beside - 10 - label.width();
                format!("  {mark:6}  {label}{:gap$}", "")
            } else {
                let label = format!("{mark} {label}");
                cut(vec![label.trim_start().to_string()], 1, columns).concat()
            };
            let mut rest = text.clone() + &"_".repeat(field.more);
            let is_open = field.mark == Mark::Open;
            // The cursor stands behind the text, and needs a place there.
            if is_open && field.more == 0 {
                rest.push(' ');
            }
            let width = columns - indent;
            if !wide {
                fields.lines.push(label.clone());
            }
            let first = fields.lines.len();
            for (number, part) in chunks(&rest, width).into_iter().enumerate() {
                let front = match (wide, number) {
                    (true, 0) => label.clone(),
                    _ => " ".repeat(indent),
                };
                fields.lines.push((front + part).trim_end().to_string());
            }
            if is_open {
                fields.open = (begin, fields.lines.len());
                fields.cursor = (first + text.len() / width, indent + text.len() % width);
            }
        }
        fields
    }

    /// Which lines are shown, if there is room for so many: with those of the open field, or if these are too many,
    /// with its first ones or the cursor's line as the last.
    fn window(&self, height: usize) -> (usize, usize) {
        let (open, end) = self.open;
        let row = self.cursor.0;
        let begin = if end - open <= height {
            end.saturating_sub(height)
        } else if row < open + height {
            open
        } else {
            row + 1 - height
        };
        (begin, self.lines.len().min(begin + height))
    }
}

/// The pieces of an ASCII text, each of so many bytes but the last; one empty piece of an empty text.
fn chunks(text: &str, width: usize) -> Vec<&str> {
    let begins = (0..text.len().max(1)).step_by(width);
    let piece = |begin| &text[begin..text.len().min(begin + width)];
    begins.map(piece).collect()
}

/// A text in lines of at most so many columns, broken at blanks where that can be. No line, if it is empty.
fn wrap(text: &str, columns: usize) -> Vec<String> {
    let mut lines: Vec<String> = Vec::new();
    for word in text.split(' ').filter(|word| !word.is_empty()) {
        match lines.last_mut() {
            Some(line) if line.width() + 1 + word.width() <= columns => {
                line.push(' ');
                line.push_str(word);
            }
            _ => lines.push(word.to_string()),
        }
        // A word that is too wide goes on in further lines.
        while lines.last().map_or(0, |line| line.width()) > columns {
            let line = lines.pop().unwrap_or_default();
            let fits = fitting(&line, columns).max(line.chars().next().map_or(0, char::len_utf8));
            let (front, rest) = line.split_at(fits);
            lines.push(front.to_string());
            if rest.is_empty() {
                break;
            }
            lines.push(rest.to_string());
        }
    }
    lines
}

/// The first lines, at most so many, none wider than the columns. Where something is left out, the last one ends in
/// two dots.
fn cut(lines: Vec<String>, most: usize, columns: usize) -> Vec<String> {
    let fits = lines.len() <= most && lines.iter().all(|line| line.width() <= columns);
    if fits {
        return lines;
    }
    let mut lines = lines;
    lines.truncate(most);
    if let Some(last) = lines.last_mut() {
        last.truncate(fitting(last, columns.saturating_sub(2)));
        last.push_str(&".."[..columns.min(2)]);
    }
    lines
}

/// The length of the longest prefix that is at most so many columns wide.
fn fitting(text: &str, columns: usize) -> usize {
    let mut width = 0;
    let wide = |(place, character): (usize, char)| {
        width += character.width().unwrap_or(0);
        (width > columns).then_some(place)
    };
    text.char_indices().find_map(wide).unwrap_or(text.len())
}

/// A row or column as terminals number them.
fn small(number: usize) -> u16 {
    u16::try_from(number).unwrap_or(u16::MAX)
}
