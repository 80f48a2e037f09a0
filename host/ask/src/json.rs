//! Answers as one line of JSON.

use crate::keys::Key;
use crate::{Asked, No, name};
use tsivareza::{Kind, Range, Ranges, Text};

/// A string in quotes, all but plain ASCII escaped.
fn quoted(text: &str) -> String {
    let mut written = String::from("\"");
    for x in text.chars() {
        match x {
            '"' | '\\' => written.extend(['\\', x]),
            '\n' => written.push_str("\\n"),
            ' '..='~' => written.push(x),
            _ => x.encode_utf16(&mut [0; 2]).iter().for_each(|unit| written.push_str(&format!("\\u{unit:04x}"))),
        }
    }
    written + "\""
}

impl Asked {
    fn json(&self, (row, col): (u32, u32)) -> String {
        let from = u64::from(self.first);
        format!("[{},{}]", u64::from(row) + from, u64::from(col) + from)
    }

    fn range(&self, range: Range) -> String {
        format!("{{\"start\":{},\"end\":{}}}", self.json(range.start), self.json(range.end))
    }
}

pub fn moved(asked: &Asked, key: &Key, to: (u32, u32)) -> String {
    format!("{{\"at\":{},\"move\":{},\"to\":{}}}\n", asked.json(asked.at), quoted(&key.to_string()), asked.json(to))
}

pub fn pair(asked: &Asked, text: &Text, found: Option<(Kind, Ranges)>) -> String {
    let at = asked.json(asked.at);
    let Some((kind, Ranges { between, whole })) = found else {
        return format!("{{\"at\":{at},\"found\":false}}\n");
    };
    format!(
        "{{\"at\":{at},\"found\":true,\"kind\":\"{}\",\"open\":{},\"close\":{},\"between\":{},\"whole\":{},\"text\":{}}}\n",
        name(kind),
        asked.json(whole.start),
        asked.json(between.end),
        asked.range(between),
        asked.range(whole),
        quoted(&text.slice(between).unwrap_or_default()),
    )
}

pub fn no(no: &No) -> String {
    let number = no.number.map_or("null".to_string(), |number| number.to_string());
    format!("{{\"refused\":{number},\"says\":{}}}\n", quoted(&no.says))
}

#[cfg(test)]
mod tests {
    #[test]
    fn strings_are_ascii() {
        assert_eq!(super::quoted("a\"\\\n\té😀"), "\"a\\\"\\\\\\n\\u0009\\u00e9\\ud83d\\ude00\"");
    }
}
