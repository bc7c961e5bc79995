//! Bytes as a field of a row: printable ones stand for themselves, `%HH` is a byte, `%{TEXT^N}` is TEXT so many times, `%` alone is no byte at all.

/// Whether a byte stands for itself.
fn is_plain(byte: u8) -> bool {
    (0x21..=0x7e).contains(&byte) && !b"%^}".contains(&byte)
}

fn one(byte: u8) -> String {
    if is_plain(byte) || byte == b'^' || byte == b'}' {
        char::from(byte).to_string()
    } else {
        format!("%{byte:02x}")
    }
}

/// The field of some bytes; long runs of a byte are counted.
pub fn written(bytes: &[u8]) -> String {
    if bytes.is_empty() {
        return "%".to_string();
    }
    let (mut field, mut at) = (String::new(), 0);
    while at < bytes.len() {
        let byte = bytes[at];
        let run = bytes[at..].iter().take_while(|&&next| next == byte).count();
        if run > 12 {
            let name = if is_plain(byte) {
                one(byte)
            } else {
                format!("%{byte:02x}")
            };
            field += &format!("%{{{name}^{run}}}");
        } else {
            field += &one(byte).repeat(run);
        }
        at += run;
    }
    field
}

/// The bytes of a field, if it is one.
pub fn read(field: &str) -> Option<Vec<u8>> {
    let mut bytes = Vec::new();
    let mut rest = match field {
        "%" => "",
        "" => return None,
        _ => field,
    };
    while let Some(at) = rest.find('%') {
        bytes.extend_from_slice(rest[..at].as_bytes());
        rest = &rest[at + 1..];
        if let Some(group) = rest.strip_prefix('{') {
            let (inside, after) = group.split_once('}')?;
            let (text, times) = inside.split_once('^')?;
            bytes.extend(read(text)?.repeat(times.parse().ok()?));
            rest = after;
        } else {
            bytes.push(u8::from_str_radix(rest.get(..2)?, 16).ok()?);
            rest = &rest[2..];
        }
    }
    bytes.extend_from_slice(rest.as_bytes());
    Some(bytes)
}
