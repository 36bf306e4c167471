//! Changes of a published text, each within one item of it.
//!
//! It stops at a text that is not as expected, so that no change is made in another place, or to something else.

/// What stands once within an item, and what is to stand in its place.
#[derive(Clone, Copy, Debug)]
pub struct Change {
    /// How the item's first line begins, behind its indentation. Its last line is the next bracket as far in.
    pub item: &'static str,
    pub old: &'static str,
    pub new: &'static str,
}

/// The text with all changes, one after the other.
///
/// # Errors
///
/// If an item does not begin on one line exactly, does not end, or does not have exactly once what is to be changed.
pub fn change(text: &str, changes: &[Change]) -> Result<String, String> {
    let mut text = text.to_string();
    for Change { item, old, new } in changes {
        let (from, to) = place_of(&text, item)?;
        let times = text[from..to].matches(old).count();
        if times != 1 {
            return Err(format!("{item} has {old:?} {times} times, not once"));
        }
        let changed = text[from..to].replace(old, new);
        text.replace_range(from..to, &changed);
    }
    Ok(text)
}

/// Where an item begins and ends.
fn place_of(text: &str, item: &str) -> Result<(usize, usize), String> {
    let mut heads = text
        .match_indices(item)
        .filter_map(|(at, _)| {
            let line = text[..at].rfind('\n').map_or(0, |end| end + 1);
            let indentation = &text[line..at];
            indentation.trim().is_empty().then_some((line, indentation))
        })
        .collect::<Vec<_>>();
    let (Some((from, indentation)), true) = (heads.pop(), heads.is_empty()) else {
        return Err(format!("{item} does not begin on one line exactly"));
    };
    let end = format!("\n{indentation}}}\n");
    let Some(at) = text[from..].find(&end) else {
        return Err(format!("{item} does not end"));
    };
    Ok((from, from + at + end.len()))
}

#[cfg(test)]
mod tests {
    use super::{Change, change};

    const TEXT: &str = "struct A {\n    b: u8,\n}\n\nimpl A {\n    fn b(&self) {\n        one(1);\n    }\n\n    \
        fn c() {\n        one(1);\n        // fn b(\n    }\n}\n";

    const B: Change = Change {
        item: "fn b(",
        old: "one(1)",
        new: "one(2)",
    };

    #[test]
    fn it_is_made_within_its_item_alone() {
        let wanted = TEXT.replacen("one(1)", "one(2)", 1);
        assert_ne!(wanted, TEXT);
        assert_eq!(change(TEXT, &[B]), Ok(wanted));
        let field = Change {
            item: "struct A {",
            old: "b: u8,\n",
            new: "b: u8,\n    c: u8,\n",
        };
        let wanted = TEXT.replace("b: u8,\n", "b: u8,\n    c: u8,\n");
        assert_eq!(change(TEXT, &[field]), Ok(wanted));
    }

    #[test]
    fn an_item_less_or_more_stops_it() {
        assert!(change(&TEXT.replace("fn b(", "fn d("), &[B]).is_err());
        assert!(change(&TEXT.replace("fn c(", "fn b("), &[B]).is_err());
        assert!(change(&TEXT.replace("    }\n", ""), &[B]).is_err());
        // A head behind something else is none.
        assert!(change(&TEXT.replace("    fn b(", "    pub fn b("), &[B]).is_err());
    }

    #[test]
    fn what_is_not_there_once_stops_it() {
        assert!(change(&TEXT.replace("one(1)", "one(3)"), &[B]).is_err());
        assert!(change(&TEXT.replace("one(1);", "one(1); one(1);"), &[B]).is_err());
        // It has been changed by then.
        assert!(change(TEXT, &[B, B]).is_err());
    }
}
