//! Puts a counter behind each write of a message in the functions that are named, on the line where the write stands.
//!
//! It stops at a text that writes a message anywhere else, or not just once where it is named, so that none is passed over in
//! silence.

/// A function that writes a list of messages, at one place.
#[derive(Clone, Copy, Debug)]
pub struct Place {
    pub function: &'static str,
    pub list: &'static str,
    /// Whether it is a write that counts, message by message.
    pub counts: bool,
}

/// The text with `counter` behind each write that counts.
///
/// # Errors
///
/// If a list of the places is written elsewhere, in a form that is not known, or not once at each place; with the line.
pub fn count(text: &str, places: &[Place], counter: &str) -> Result<String, String> {
    let mut found = vec![0; places.len()];
    let (mut result, mut function) = (String::new(), "");
    for (number, line) in text.lines().enumerate() {
        let code = line.trim_start();
        let wrong = |why: &str| Err(format!("line {}: {why}: {code}", number + 1));
        function = function_named(code).unwrap_or(function);
        result += line;
        let mut lists: Vec<&str> = places.iter().map(|place| place.list).collect();
        lists.sort_unstable();
        lists.dedup();
        for list in lists {
            let Some(form) = form_of(code, list) else {
                continue;
            };
            let is_here = |place: &Place| (place.function, place.list) == (function, list);
            let Some(place) = places.iter().position(is_here) else {
                return wrong("a message is written where none should be");
            };
            found[place] += 1;
            match (places[place].counts, form) {
                (true, Form::OneMessage) => result += &format!(" {counter}"),
                (false, Form::OneMessage | Form::ByItsMethod) => {}
                _ => return wrong("a message is written in a way that can't be counted"),
            }
        }
        result += "\n";
    }
    for (place, times) in places.iter().zip(found) {
        if times != 1 {
            let Place { function, list, .. } = place;
            return Err(format!(
                "{function} writes {list} at {times} places, not at one"
            ));
        }
    }
    Ok(result)
}

/// How a line writes a list.
#[derive(Clone, Copy)]
enum Form {
    /// One message, in a statement that is the whole line.
    OneMessage,
    /// By a method of the list.
    ByItsMethod,
    Unknown,
}

fn form_of(code: &str, list: &str) -> Option<Form> {
    if code.starts_with("//") {
        return None;
    }
    let indexed = format!("{list}[");
    let mut written = code
        .match_indices(&indexed)
        .filter(|(at, _)| is_assigned(&code[at + list.len()..]));
    if let Some((at, _)) = written.next() {
        let is_whole = ["", "self."].contains(&&code[..at])
            && code.ends_with(';')
            && code.matches(';').count() == 1
            && code.matches(" = ").count() == 1;
        return Some(if is_whole && written.next().is_none() {
            Form::OneMessage
        } else {
            Form::Unknown
        });
    }
    if code.contains(&format!("{list}.")) {
        return Some(Form::ByItsMethod);
    }
    // A loop over the list itself.
    (code.starts_with("for ") && code.contains(list)).then_some(Form::Unknown)
}

/// Whether what stands in the brackets at the front of a text is assigned to, in any way.
fn is_assigned(text: &str) -> bool {
    let mut depth = 0;
    let end = text.find(|c| {
        depth += match c {
            '[' => 1,
            ']' => -1,
            _ => 0,
        };
        depth == 0
    });
    let after = end.map_or("", |end| text[end + 1..].trim_start());
    let after = after.trim_start_matches(['+', '-', '*', '/']);
    after.starts_with('=') && !after.starts_with("==")
}

/// The function that starts on this line.
fn function_named(code: &str) -> Option<&str> {
    let code = code.strip_prefix("pub ").unwrap_or(code);
    let code = code.strip_prefix("const ").unwrap_or(code);
    let name = code.strip_prefix("fn ")?;
    let end = name.find(|c: char| !c.is_alphanumeric() && c != '_')?;
    Some(&name[..end])
}

#[cfg(test)]
mod tests {
    use super::{Place, count};

    const START: Place = Place {
        function: "start",
        list: "to_v",
        counts: false,
    };
    const UPDATE: Place = Place {
        function: "update",
        list: "to_v",
        counts: true,
    };

    const TEXT: &str = "fn start() {\n    self.to_v.fill(0.0);\n}\n\
        fn update(to_v: &mut [f64]) {\n    for &m in entries {\n        to_v[m as usize] = a * to_v[m];\n    }\n}\n";

    fn counted(text: &str) -> Result<String, String> {
        count(text, &[START, UPDATE], "one();")
    }

    #[test]
    fn a_write_that_counts_is_counted_on_its_line() {
        let wanted = TEXT.replace("to_v[m];\n", "to_v[m]; one();\n");
        assert_ne!(wanted, TEXT);
        assert_eq!(counted(TEXT), Ok(wanted));
    }

    #[test]
    fn a_write_less_or_more_stops_it() {
        let write = "        to_v[m as usize] = a * to_v[m];\n";
        assert!(counted(&TEXT.replace(write, "")).is_err());
        assert!(counted(&TEXT.replace(write, &write.repeat(2))).is_err());
        assert!(counted(&TEXT.replace("    self.to_v.fill(0.0);\n", "")).is_err());
        assert!(counted(&TEXT.replace("fn update", "fn renamed")).is_err());
    }

    #[test]
    fn a_write_elsewhere_stops_it() {
        for line in [
            "to_v[0] = 1.0;",
            "self.to_v[0] = 1.0;",
            "other(); self.to_v[of[0]] = 1.0;",
            "if true { to_v[0] *= 2.0; }",
            "self.to_v.fill(1.0);",
            "for message in &mut self.to_v {",
        ] {
            let text = format!("{TEXT}fn other() {{\n    {line}\n}}\n");
            assert!(counted(&text).is_err(), "{line}");
        }
        // What is read or handed on is no write, and a remark is none.
        for line in [
            "let message = to_v[0];",
            "if to_v[of[0]] == 1.0 {",
            "other[0] = to_v[0];",
            "update(&mut self.to_v);",
            "// to_v[0] = 1.0;",
        ] {
            let text = format!("{TEXT}fn other() {{\n    {line}\n}}\n");
            assert!(counted(&text).is_ok(), "{line}");
        }
    }

    #[test]
    fn another_form_stops_it() {
        for (old, new) in [
            ("to_v[m as usize] = a * to_v[m];", "to_v[m as usize] += a;"),
            (
                "to_v[m as usize] = a",
                "to_v[0] = 1.0; to_v[m as usize] = a",
            ),
            ("to_v[m as usize] = a", "to_v[0] = to_v[m as usize] = a"),
            ("to_v[m as usize] = a", "if b { to_v[m as usize] = a"),
            ("to_v[m as usize] = a * to_v[m];", "to_v[m as usize] ="),
            ("to_v[m as usize] = a * to_v[m];", "to_v.fill(a);"),
        ] {
            assert!(counted(&TEXT.replace(old, new)).is_err(), "{new}");
        }
    }
}
