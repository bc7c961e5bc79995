//! The form as its author wrote it: a title and the fields, from a file in TOML.

use palgondur::{Desk, Machine};
use serde::de::IgnoredAny;
use serde::Deserialize;
use std::collections::BTreeMap;
use toml::Spanned;

/// A form.
#[derive(Deserialize, Debug)]
#[serde(deny_unknown_fields)]
pub struct Form {
    /// What stands above the fields.
    pub title: String,
    /// The fields, in the order in which they are filled in.
    #[serde(rename = "field")]
    pub fields: Vec<Field>,
}

/// A field of a form.
#[derive(Deserialize, Debug)]
#[serde(deny_unknown_fields)]
pub struct Field {
    /// What it is called.
    pub label: String,
    /// The pattern that its text must match as a whole.
    pub pattern: String,
    /// What it wants, in words.
    pub hint: String,
    /// Whether its text is hidden on the screen.
    pub masked: bool,
}

/// The names that a form and a field have in the file.
const FORM: [&str; 2] = ["title", "field"];
const FIELD: [&str; 4] = ["label", "pattern", "hint", "masked"];

impl Form {
    /// The form of three fields that is shown where no file is named.
    pub const USUAL: &'static str = include_str!("../forms/component.toml");

    /// The form that a text describes, or in a sentence why it is none.
    pub fn read(text: &str) -> Result<Form, String> {
        let read: Result<Form, _> = toml::from_str(text);
        let form = read.map_err(|error| unknown(text).unwrap_or_else(|| error.to_string()))?;
        let labels = form.fields.iter().map(|field| ("label", &field.label));
        for (name, shown) in labels.clone().chain([("title", &form.title)]) {
            if shown.trim().is_empty() {
                return Err(format!("a {name} is empty"));
            }
        }
        let hints = form.fields.iter().map(|field| ("hint", &field.hint));
        for (name, shown) in labels.chain(hints).chain([("title", &form.title)]) {
            // A terminal would obey it.
            if shown.chars().any(char::is_control) {
                return Err(format!("the {name} {shown:?} has a control character"));
            }
        }
        Ok(form)
    }

    /// The desk that has the machine of each field. A refused pattern is shown with a caret at its place.
    pub fn open(&self) -> Result<Desk, String> {
        let mut machines = Vec::new();
        for (number, field) in self.fields.iter().enumerate() {
            let Field { label, pattern, .. } = field;
            machines.push(Machine::compile(pattern).map_err(|refusal| {
                let shown = excerpt(&refusal.shown(pattern));
                format!(
                    "the pattern of field {} ({label}) is refused\n{shown}",
                    number + 1
                )
            })?);
        }
        Desk::open(&machines).map_err(|refusal| refusal.to_string())
    }
}

/// So much of a refused pattern is shown before its place, and after it.
const ASIDE: usize = 36;

/// A refused pattern as it is shown, with what is far from the caret left out: on a terminal no line is to wrap.
fn excerpt(shown: &str) -> String {
    let (pattern, below) = shown.split_once('\n').unwrap_or((shown, ""));
    let reason = below.trim_start_matches([' ', '^']);
    let caret = below.find('^');
    let begin = caret.unwrap_or(0).saturating_sub(ASIDE);
    let end = pattern.len().min(begin + 2 * ASIDE);
    let (front, back) = (
        if begin > 0 { ".." } else { "" },
        if end < pattern.len() { ".." } else { "" },
    );
    let pattern = format!("{front}{}{back}", &pattern[begin..end]);
    match caret {
        None => format!("{pattern}\n{reason}"),
        Some(caret) => format!(
            "{pattern}\n{:1$}^ {reason}",
            "",
            front.len() + caret - begin
        ),
    }
}

/// The names of a table, each with its place in the text.
type Names = BTreeMap<Spanned<String>, IgnoredAny>;

/// The fields of a form, by their names alone.
#[derive(Deserialize)]
struct Fields {
    field: Vec<Names>,
}

/// The first entry of a text that no form or field has, with its line. (The reader's own message names the line where
/// the table begins.)
fn unknown(text: &str) -> Option<String> {
    let strange = |names: Names, known: &'static [&str]| {
        let strange = move |name: &Spanned<String>| !known.contains(&&name.get_ref()[..]);
        names.into_keys().filter(strange)
    };
    let form: Names = toml::from_str(text).ok()?;
    let fields = toml::from_str(text).map_or(Vec::new(), |fields: Fields| fields.field);
    let fields = fields.into_iter().flat_map(|field| strange(field, &FIELD));
    let first = strange(form, &FORM)
        .chain(fields)
        .min_by_key(Spanned::start)?;
    let line = text[..first.start()].matches('\n').count() + 1;
    Some(format!(
        "unknown entry `{}` at line {line}",
        first.get_ref()
    ))
}
