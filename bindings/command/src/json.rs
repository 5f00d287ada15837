//! Writes JSON without a library.

pub fn string(text: &str) -> String {
    let mut quoted = String::from("\"");
    for c in text.chars() {
        match c {
            '"' | '\\' => quoted.extend(['\\', c]),
            c if u32::from(c) < 0x20 || c == '\u{7F}' => quoted += &format!("\\u{:04x}", u32::from(c)),
            c => quoted.push(c),
        }
    }
    quoted + "\""
}

/// A number to hundredths; null if JSON cannot represent it.
pub fn degrees(t: f32) -> String {
    if t.is_finite() {
        format!("{t:.2}")
    } else {
        "null".to_string()
    }
}

pub fn list(items: impl IntoIterator<Item = String>) -> String {
    format!("[{}]", items.into_iter().collect::<Vec<_>>().join(","))
}

pub fn or_null(item: Option<String>) -> String {
    item.unwrap_or_else(|| "null".to_string())
}

/// An object with these names and values.
pub fn object(fields: &[(&str, String)]) -> String {
    let fields: Vec<String> = fields.iter().map(|(name, value)| format!("{}:{value}", string(name))).collect();
    format!("{{{}}}", fields.join(","))
}

#[cfg(test)]
mod tests {
    use super::*;

    #[test]
    fn strings_are_quoted() {
        assert_eq!(string("a\"b\\c\n\u{1}é"), "\"a\\\"b\\\\c\\u000a\\u0001é\"");
        assert_eq!(degrees(f32::NAN), "null");
        assert_eq!(object(&[("a", list(["1".to_string(), degrees(-0.5)])), ("b", or_null(None))]), "{\"a\":[1,-0.50],\"b\":null}");
    }
}
