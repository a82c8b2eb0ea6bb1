//! JSON, as far as a check or a map needs it.

/// A text in quotes; all but printable ASCII by number.
pub fn text(text: &str) -> String {
    let mut quoted = String::from("\"");
    for c in text.chars() {
        match c {
            '"' | '\\' => quoted.extend(['\\', c]),
            '\u{20}'..='\u{7e}' => quoted.push(c),
            _ => quoted.extend(c.encode_utf16(&mut [0; 2]).iter().map(|u| format!("\\u{u:04x}"))),
        }
    }
    quoted.push('"');
    quoted
}

/// Bytes as two hexadecimal digits each, in quotes.
pub fn hex(bytes: &[u8]) -> String {
    let digits: String = bytes.iter().map(|byte| format!("{byte:02x}")).collect();
    format!("\"{digits}\"")
}

/// A number, or null.
pub fn number(number: Option<impl ToString>) -> String {
    number.map_or("null".into(), |number| number.to_string())
}

pub fn object(fields: &[(&str, String)]) -> String {
    let fields: Vec<_> =
        fields.iter().map(|(name, value)| format!("\"{name}\": {value}")).collect();
    format!("{{{}}}", fields.join(", "))
}

/// The outermost object, one field a line.
pub fn page(fields: &[(&str, String)]) -> String {
    let lines: Vec<_> =
        fields.iter().map(|(name, value)| format!("\n  \"{name}\": {value}")).collect();
    format!("{{{}\n}}\n", lines.join(","))
}

/// A list, one element a line.
pub fn list(elements: impl Iterator<Item = String>) -> String {
    let elements: Vec<_> = elements.map(|element| format!("\n    {element}")).collect();
    if elements.is_empty() {
        return "[]".into();
    }
    format!("[{}\n  ]", elements.join(","))
}
