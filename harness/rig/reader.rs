//! Builds the Rust's `Message` through its public fields, by the specification's section on messages, with the numbers of its refusals.
use er7::{Component, Field, Message, Repetition, Segment, Separators, Subcomponent};

fn leaf(text: &str) -> Field {
    Field { repetitions: vec![Repetition { components: vec![Component { subcomponents: vec![Subcomponent::new(text)] }] }] }
}

/// A field cut at its delimiters, and how many leaves it has.
fn field(text: &str, s: &Separators, leaves: &mut usize) -> Field {
    let component = |text: &str, leaves: &mut usize| {
        let subcomponents: Vec<Subcomponent> = text.split(s.subcomponent).map(Subcomponent::new).collect();
        *leaves += subcomponents.len();
        Component { subcomponents }
    };
    let repetition = |text: &str, leaves: &mut usize| Repetition {
        components: text.split(s.component).map(|t| component(t, leaves)).collect(),
    };
    Field { repetitions: text.split(s.repetition).map(|t| repetition(t, leaves)).collect() }
}

/// The message and whether it ended in CR; or the number that refuses it.
pub fn read(bytes: &[u8]) -> Result<(Message, bool), u32> {
    if bytes.len() > 32_768 {
        return Err(2);
    }
    if bytes.iter().any(|&b| b != b'\t' && b != b'\r' && !(0x20..=0x7e).contains(&b)) {
        return Err(3);
    }
    let text = std::str::from_utf8(bytes).map_err(|_| 3_u32)?;
    // No bytes: a message without segments.
    if text.is_empty() {
        return Ok((Message { separators: Separators::default(), segments: Vec::new() }, false));
    }
    let line = text.split('\r').next().unwrap_or("");
    if !line.starts_with("MSH") || line.len() < 8 {
        return Err(4);
    }
    // The Rust's own check covers letters, digits and line ends, and that no two are the same.
    let at = |i: usize| line.as_bytes()[i] as char;
    let separators = Separators { field: at(3), component: at(4), repetition: at(5), escape: at(6), subcomponent: at(7), truncation: None };
    if separators.validate().is_err() || line[3..8].contains([' ', '\t', '"']) {
        return Err(4);
    }
    if line.len() > 8 && at(8) != separators.field {
        return Err(4);
    }
    let (body, last_cr) = match text.strip_suffix('\r') {
        Some(body) => (body, true),
        None => (text, false),
    };
    let mut segments: Vec<Segment> = Vec::new();
    let mut leaves = 0;
    for (i, line) in body.split('\r').enumerate() {
        let (fields_of, mut fields) = if i == 0 {
            leaves = 2;
            (&line[8..], vec![leaf(&line[3..4]), leaf(&line[4..8])])
        } else {
            let name = line.get(..3).ok_or(5_u32)?;
            if name.contains(|c: char| !c.is_ascii_uppercase() && !c.is_ascii_digit()) || matches!(name, "MSH" | "FHS" | "BHS") {
                return Err(5);
            }
            if !line[3..].is_empty() && !line[3..].starts_with(separators.field) {
                return Err(5);
            }
            (&line[3..], Vec::new())
        };
        if i == 256 {
            return Err(6);
        }
        if let Some(rest) = fields_of.strip_prefix(separators.field) {
            fields.extend(rest.split(separators.field).map(|t| field(t, &separators, &mut leaves)));
        }
        if leaves > 4_096 {
            return Err(6);
        }
        segments.push(Segment { name: line[..3].to_string(), fields });
    }
    Ok((Message { separators, segments }, last_cr))
}
