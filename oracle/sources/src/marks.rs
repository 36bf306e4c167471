//! Puts a counter at every branch of a Rust text, on the line where the branch stands.
//!
//! It knows the part of the language that the two published files use and stops at what it does
//! not know (`while`, `loop`, raw strings), so that no branch is passed over in silence. Counted are:
//! functions; both ways of each `if`, also where no `else` is written; loops with and without a
//! round; match arms; closures; both values of each operand of `&&` and `||`, of the conditions
//! given to `find`, `position` and `is_none_or`, and of a bracketed comparison with zero; both ways
//! of `?` and `expect`; the three ways of `clamp`; the sign that `copysign` reads.

use std::collections::BTreeSet;

/// A counted place: file, line of the published text, and what is counted there.
pub struct Site {
    pub file: String,
    pub line: usize,
    pub what: String,
}

/// The table of all sites, as Rust text for the counted package.
#[must_use]
pub fn sites_table(sites: &[Site]) -> String {
    let mut text = format!("pub static SITES: [count::Site; {}] = [\n", sites.len());
    for Site { file, line, what } in sites {
        text += &format!("count::Site {{ file: {file:?}, line: {line}, what: {what:?} }},\n");
    }
    text + "];\n"
}

/// The text with its counters; the sites are added to `sites`, whose places are the counters' numbers.
///
/// # Errors
///
/// Says what in the text it does not know.
pub fn mark(file: &str, text: &str, sites: &mut Vec<Site>) -> Result<String, String> {
    let tokens = tokens(text)?;
    let partner = partners(&tokens)?;
    let mut marker = Marker {
        file,
        tokens,
        partner,
        sites,
        edits: Vec::new(),
    };
    marker.mark_all()?;
    Ok(apply(text, marker.edits))
}

struct Token<'a> {
    text: &'a str,
    start: usize,
    line: usize,
}

impl Token<'_> {
    fn end(&self) -> usize {
        self.start + self.text.len()
    }
}

/// Operators of more than one character that matter here, longest first.
const LONG: [&str; 15] = [
    "..=", "&&", "||", "=>", "==", "<=", ">=", "!=", "->", "::", "..", "+=", "-=", "*=", "/=",
];

fn tokens(text: &str) -> Result<Vec<Token<'_>>, String> {
    let mut found = Vec::new();
    let (mut at, mut line) = (0, 1);
    while let Some(first) = text[at..].chars().next() {
        let rest = &text[at..];
        let length = if rest.starts_with("//") {
            rest.find('\n').unwrap_or(rest.len())
        } else if rest.starts_with("/*") || rest.starts_with("r\"") || rest.starts_with("r#") {
            return Err(format!("line {line}: a block comment or raw string"));
        } else if first.is_whitespace() {
            first.len_utf8()
        } else {
            let length = token_length(rest, first);
            found.push(Token {
                text: &rest[..length],
                start: at,
                line,
            });
            length
        };
        line += rest[..length].matches('\n').count();
        at += length;
    }
    Ok(found)
}

fn token_length(rest: &str, first: char) -> usize {
    let bytes = rest.as_bytes();
    if first == '"' {
        return string_length(bytes);
    }
    if first == '\'' {
        // A character if a quote closes it, else a lifetime.
        let after = rest[1..].chars().next().map_or(1, char::len_utf8);
        if bytes.get(1) == Some(&b'\\') {
            return rest[2..].find('\'').map_or(rest.len(), |place| place + 3);
        }
        if bytes.get(1 + after) == Some(&b'\'') {
            return after + 2;
        }
        return 1 + word_length(&rest[1..]);
    }
    if first.is_ascii_digit() {
        let whole = word_length(rest);
        let fraction =
            bytes.get(whole) == Some(&b'.') && bytes.get(whole + 1).is_some_and(u8::is_ascii_digit);
        return if fraction {
            whole + 1 + word_length(&rest[whole + 1..])
        } else {
            whole
        };
    }
    match word_length(rest) {
        0 => LONG
            .iter()
            .find(|operator| rest.starts_with(**operator))
            .map_or(first.len_utf8(), |operator| operator.len()),
        length => length,
    }
}

fn word_length(rest: &str) -> usize {
    rest.find(|c: char| !c.is_alphanumeric() && c != '_')
        .unwrap_or(rest.len())
}

fn string_length(bytes: &[u8]) -> usize {
    let mut at = 1;
    while at < bytes.len() && bytes[at] != b'"' {
        at += if bytes[at] == b'\\' { 2 } else { 1 };
    }
    at + 1
}

/// For each bracket the place of the bracket that it pairs with; for other tokens their own place.
fn partners(tokens: &[Token]) -> Result<Vec<usize>, String> {
    let mut partner: Vec<usize> = (0..tokens.len()).collect();
    let mut open = Vec::new();
    for (at, token) in tokens.iter().enumerate() {
        match token.text {
            "(" | "[" | "{" => open.push(at),
            ")" | "]" | "}" => {
                let start = open.pop().ok_or(format!("line {}: unpaired", token.line))?;
                partner[start] = at;
                partner[at] = start;
            }
            _ => {}
        }
    }
    if open.is_empty() {
        Ok(partner)
    } else {
        Err("a bracket that is never closed".into())
    }
}

/// Replace `from..to` of the text.
struct Edit {
    from: usize,
    to: usize,
    text: String,
}

fn apply(text: &str, mut edits: Vec<Edit>) -> String {
    edits.sort_by_key(|edit| edit.from);
    let (mut result, mut at) = (String::new(), 0);
    for edit in edits {
        result += &text[at..edit.from];
        result += &edit.text;
        at = edit.to;
    }
    result + &text[at..]
}

struct Marker<'a, 'b> {
    file: &'a str,
    tokens: Vec<Token<'a>>,
    partner: Vec<usize>,
    sites: &'b mut Vec<Site>,
    edits: Vec<Edit>,
}

impl Marker<'_, '_> {
    fn mark_all(&mut self) -> Result<(), String> {
        let mut operands = BTreeSet::new();
        let mut traits_named = false;
        for at in 0..self.tokens.len() {
            match self.tokens[at].text {
                "while" | "loop" => {
                    return Err(format!(
                        "line {}: a loop of unknown kind",
                        self.tokens[at].line
                    ));
                }
                "use" if !traits_named => {
                    traits_named = true;
                    let words =
                        "#[allow(unused_imports)] use crate::count::{Clamped as _, Counted as _}; ";
                    self.before(at, words);
                }
                "fn" => self.mark_function(at),
                "if" => self.mark_if(at),
                // `impl X for Y` stands after a name, a loop after a statement or at a block's start.
                "for" if matches!(self.back(at, 1), "{" | "}" | ";") => self.mark_loop(at),
                "match" => self.mark_match(at),
                "|" | "||" if matches!(self.back(at, 1), "(" | "," | "=") => self.mark_closure(at),
                "&&" | "||" => {
                    operands.insert(self.left_operand(at));
                    operands.insert(self.right_operand(at));
                }
                "?" => self.mark_result(at, "?"),
                "expect" if self.back(at, 1) == "." => self.mark_result(at - 1, "expect"),
                "clamp" if self.back(at, 1) == "." => {
                    let ways = ["clamp: below", "clamp: within", "clamp: above"];
                    let sites = ways.map(|what| self.site(at, what));
                    self.replace(at, at + 1, &format!("clamped({sites:?}, "));
                }
                "copysign" if self.back(at, 1) == "." => {
                    let ways = [
                        "copysign: reads +",
                        "copysign: reads -",
                        "copysign: reads a NaN",
                    ];
                    let sites = ways.map(|what| self.site(at, what));
                    // The receiver is a plain name in the published file.
                    self.before(at - 2, &format!("crate::count::signed({sites:?}, "));
                    self.replace(at - 1, at + 1, ", ");
                }
                "(" if self.compares_with_zero(at) => {
                    self.wrap_condition(at + 1, self.partner[at] - 1, "comparison");
                }
                _ => {}
            }
        }
        for (first, last) in operands {
            self.wrap_condition(first, last, "operand");
        }
        Ok(())
    }

    fn text(&self, at: usize) -> &str {
        self.tokens.get(at).map_or("", |token| token.text)
    }

    /// The token `steps` before `at`.
    fn back(&self, at: usize, steps: usize) -> &str {
        at.checked_sub(steps).map_or("", |place| self.text(place))
    }

    fn site(&mut self, at: usize, what: &str) -> usize {
        self.sites.push(Site {
            file: self.file.to_string(),
            line: self.tokens[at].line,
            what: what.to_string(),
        });
        self.sites.len() - 1
    }

    fn hit(&mut self, at: usize, what: &str) -> String {
        format!("crate::count::hit({});", self.site(at, what))
    }

    fn before(&mut self, at: usize, text: &str) {
        let place = self.tokens[at].start;
        self.edits.push(Edit {
            from: place,
            to: place,
            text: text.to_string(),
        });
    }

    fn after(&mut self, at: usize, text: &str) {
        let place = self.tokens[at].end();
        self.edits.push(Edit {
            from: place,
            to: place,
            text: text.to_string(),
        });
    }

    fn replace(&mut self, first: usize, last: usize, text: &str) {
        self.edits.push(Edit {
            from: self.tokens[first].start,
            to: self.tokens[last].end(),
            text: text.to_string(),
        });
    }

    /// The `{` of the block that the keyword at `at` leads to; brackets before it are passed over.
    fn block_after(&self, at: usize) -> usize {
        let mut at = at + 1;
        while self.text(at) != "{" {
            at = self.skip(at) + 1;
        }
        at
    }

    /// The last token of the bracket group that starts at `at`, or `at` itself.
    fn skip(&self, at: usize) -> usize {
        self.partner[at].max(at)
    }

    fn mark_function(&mut self, at: usize) {
        // A counter can't be called in a constant function, so the word is taken out.
        if self.back(at, 1) == "const" {
            self.replace(at - 1, at - 1, "");
        }
        let name = self.text(at + 1).to_string();
        let hit = self.hit(at, &format!("fn {name}"));
        self.after(self.block_after(at), &hit);
    }

    fn mark_if(&mut self, at: usize) {
        let open = self.block_after(at);
        let close = self.partner[open];
        let hit = self.hit(at, "if: taken");
        self.after(open, &hit);
        if self.text(close + 1) != "else" {
            let hit = self.hit(at, "if: not taken");
            self.after(close, &format!(" else {{ {hit} }}"));
        } else if self.text(close + 2) == "{" {
            let hit = self.hit(close + 1, "else: taken");
            self.after(close + 2, &hit);
        }
    }

    fn mark_loop(&mut self, at: usize) {
        let open = self.block_after(at);
        let round = self.hit(at, "for: a round");
        let none = self.hit(at, "for: no round");
        self.before(at, "{ let mut went_round = false; ");
        self.after(open, &format!(" went_round = true; {round}"));
        self.after(
            self.partner[open],
            &format!(" if !went_round {{ {none} }} }}"),
        );
    }

    fn mark_match(&mut self, at: usize) {
        let open = self.block_after(at);
        let close = self.partner[open];
        let mut at = open + 1;
        while at < close {
            while self.text(at) != "=>" {
                at = self.skip(at) + 1;
            }
            let hit = self.hit(at, "match: arm");
            let first = at + 1;
            if self.text(first) == "{" {
                self.after(first, &hit);
                at = self.partner[first] + 1;
            } else {
                let last = self.expression_end(first);
                self.before(first, &format!("{{ {hit} "));
                self.after(last, " }");
                at = last + 1;
            }
            if self.text(at) == "," {
                at += 1;
            }
        }
    }

    fn mark_closure(&mut self, at: usize) {
        let mut first = at + 1;
        if self.text(at) == "|" {
            while self.text(first) != "|" {
                first = self.skip(first) + 1;
            }
            first += 1;
        }
        let condition = matches!(self.back(at, 2), "find" | "position" | "is_none_or");
        if condition {
            let last = self.expression_end(first);
            self.wrap_condition(first, last, "closure");
        } else if self.text(first) == "{" {
            let hit = self.hit(at, "closure");
            self.after(first, &hit);
        } else {
            let last = self.expression_end(first);
            let hit = self.hit(at, "closure");
            self.before(first, &format!("{{ {hit} "));
            self.after(last, " }");
        }
    }

    /// The last token of the expression at `at`: up to a comma or the bracket around it.
    fn expression_end(&self, at: usize) -> usize {
        let mut at = at;
        while !matches!(self.text(at), "," | ")" | "]" | "}" | ";") {
            at = self.skip(at) + 1;
        }
        at - 1
    }

    fn left_operand(&self, operator: usize) -> (usize, usize) {
        let mut at = operator - 1;
        while !matches!(
            self.text(at),
            "{" | "}" | "(" | "[" | ";" | "," | "=" | "=>" | "if" | "return" | "&&" | "||"
        ) {
            at = self.partner[at].min(at) - 1;
        }
        (at + 1, operator - 1)
    }

    fn right_operand(&self, operator: usize) -> (usize, usize) {
        let mut at = operator + 1;
        while !matches!(
            self.text(at),
            "{" | "}" | ")" | "]" | ";" | "," | "&&" | "||"
        ) {
            at = self.skip(at) + 1;
        }
        (operator + 1, at - 1)
    }

    fn compares_with_zero(&self, open: usize) -> bool {
        let close = self.partner[open];
        close > open + 3
            && self.text(close - 1) == "0.0"
            && matches!(self.text(close - 2), "<" | ">")
            && !(open..close).any(|at| matches!(self.text(at), "," | "&&" | "||"))
    }

    /// Counts both values of a condition; those of one kind on one line are numbered from the left.
    fn wrap_condition(&mut self, first: usize, last: usize, kind: &str) {
        let line = self.tokens[first].line;
        let earlier = self.sites.iter();
        let earlier = earlier.filter(|s| s.file == self.file && s.line == line);
        let number = earlier.filter(|s| s.what.starts_with(kind)).count() / 2 + 1;
        let yes = self.site(first, &format!("{kind} {number}: true"));
        let no = self.site(first, &format!("{kind} {number}: false"));
        self.before(first, &format!("crate::count::both({yes}, {no}, "));
        self.after(last, ")");
    }

    fn mark_result(&mut self, at: usize, kind: &str) {
        let ok = self.site(at, &format!("{kind}: Ok"));
        let err = self.site(at, &format!("{kind}: Err"));
        self.before(at, &format!(".counted({ok}, {err})"));
    }
}

#[cfg(test)]
mod tests {
    use super::*;

    fn marked(text: &str) -> (String, Vec<String>) {
        let mut sites = Vec::new();
        let result = mark("f.rs", text, &mut sites).expect("known text");
        assert_eq!(result.lines().count(), text.lines().count());
        let seen = sites.iter().map(|s| format!("{} {}", s.line, s.what));
        (result, seen.collect())
    }

    #[test]
    fn an_if_without_else_gets_one() {
        let (text, sites) = marked("fn f(x: u8) {\n    if x > 1 { g(); }\n}\n");
        assert_eq!(sites, ["1 fn f", "2 if: taken", "2 if: not taken"]);
        assert!(text.contains("g(); } else { crate::count::hit(2); }"));
    }

    #[test]
    fn a_chain_of_ifs_gets_one_last_else() {
        let (_, sites) = marked("fn f() { if a { } else if b { } }");
        let wanted = ["1 fn f", "1 if: taken", "1 if: taken", "1 if: not taken"];
        assert_eq!(sites, wanted);
    }

    #[test]
    fn each_operand_is_counted_once() {
        let (text, sites) = marked("fn f() -> bool { a == 1 && g(b || c) && !d }");
        assert_eq!(sites.iter().filter(|s| s.contains("operand")).count(), 10);
        assert!(text.contains("crate::count::both(1, 2, a == 1) && "));
    }

    #[test]
    fn words_in_strings_comments_and_impls_are_left_alone() {
        let (_, sites) = marked("// if x {\nimpl A for B { fn f() { g(\"if {x} for\"); } }\n");
        assert_eq!(sites, ["2 fn f"]);
    }

    #[test]
    fn an_unknown_loop_stops_it() {
        assert!(mark("f.rs", "fn f() { while a { } }", &mut Vec::new()).is_err());
    }
}
