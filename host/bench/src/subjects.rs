//! The patterns that are measured, each with another that it is compared with and the texts that it is matched against.

/// A pattern, and how tables show it.
pub struct Pattern {
    pub text: String,
    pub shown: String,
}

/// A pattern, one to compare it with, and a maker of texts of a given length.
pub struct Subject {
    pub pattern: Pattern,
    pub other: Pattern,
    pub text: fn(usize) -> Vec<u8>,
}

/// All that is measured.
pub fn subjects() -> Vec<Subject> {
    let five = "(a|b)".repeat(5);
    let parity = |left, right| format!("({left}{right}|{right}{left})");
    let (even, odd) = ("[03569ACF]", "[12478BDE]");
    vec![
        subject(plain("(ab*|a)b"), plain("abb*"), one_a_then_b),
        subject(
            named(&parity(even, odd), "odd-parity byte"),
            named(&parity(odd, even), "with its branches changed round"),
            hex,
        ),
        subject(sixteen("[0-9A-F]"), sixteen("[0-9A-Fa]"), hex),
        subject(
            named(&format!("(a|b)*a{five}"), "`(a\\|b)*a` and five `(a\\|b)`"),
            named(&format!("(a|b)*a{five}"), "itself"),
            letters,
        ),
        subject(plain("(a*|b*)*"), plain("(a|b)*"), letters),
        subject(plain("a*b*"), plain("(a|b)*"), half_a_half_b),
    ]
}

fn subject(pattern: Pattern, other: Pattern, text: fn(usize) -> Vec<u8>) -> Subject {
    Subject {
        pattern,
        other,
        text,
    }
}

/// A pattern that is shown as it stands.
fn plain(text: &str) -> Pattern {
    named(text, &format!("`{}`", text.replace('|', "\\|")))
}

fn named(text: &str, shown: &str) -> Pattern {
    Pattern {
        text: text.into(),
        shown: shown.into(),
    }
}

/// Sixteen times the same class.
fn sixteen(class: &str) -> Pattern {
    named(&class.repeat(16), &format!("sixteen `{class}`"))
}

/// One a, and b from there on.
fn one_a_then_b(length: usize) -> Vec<u8> {
    let mut text = vec![b'b'; length];
    text[0] = b'a';
    text
}

/// As many a as b, the a first.
fn half_a_half_b(length: usize) -> Vec<u8> {
    let mut text = vec![b'a'; length];
    text[length / 2..].fill(b'b');
    text
}

/// Hex digits, drawn.
fn hex(length: usize) -> Vec<u8> {
    drawn(length, b"0123456789ABCDEF")
}

/// Letters a and b, drawn, with an a as the sixth from the end.
fn letters(length: usize) -> Vec<u8> {
    let mut text = drawn(length, b"ab");
    text[length - 6] = b'a';
    text
}

/// Letters drawn from an alphabet, the same in every run.
pub fn drawn(length: usize, alphabet: &[u8]) -> Vec<u8> {
    let mut seed = 0x9E37_79B9_7F4A_7C15_u64;
    let mut draw = || {
        seed ^= seed << 13;
        seed ^= seed >> 7;
        seed ^= seed << 17;
        alphabet[(seed >> 33) as usize % alphabet.len()]
    };
    (0..length).map(|_| draw()).collect()
}
