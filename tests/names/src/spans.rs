//! The spans of a document that stand in backticks, and which of them are names.

const ENDINGS: &str = ".antt .edit .in .jsonl .lock .md .out .rs .rt .svg .toml .txt";
/// Words of a pattern that stand for any, with what is beside them, and the pattern with `*`.
const PLACEHOLDERS: [(&str, &str); 4] = [
    ("/NAME.", "/*."),
    ("_GG", "_*"),
    ("_HH", "_*"),
    ("_NN", "_*"),
];

/// The lines outside fenced blocks with their numbers, cut at the backticks: every second part is a span.
pub fn lines(document: &str) -> Vec<(usize, Vec<&str>)> {
    let mut fenced = false;
    let mut lines = Vec::new();
    for (number, line) in (1..).zip(document.lines()) {
        if line.trim_start().starts_with("```") {
            fenced = !fenced;
        } else if !fenced {
            lines.push((number, line.split('`').collect()));
        }
    }
    lines
}

fn is_inner(c: char) -> bool {
    c.is_alphanumeric() || "-_′·".contains(c)
}

pub fn is_identifier(word: &str) -> bool {
    let is_hex = word.chars().all(|c| c.is_ascii_hexdigit()) && word.contains(char::is_numeric);
    let starts = word.starts_with(|c: char| c.is_alphabetic() || c == '_');
    starts && word.chars().all(is_inner) && word.contains(char::is_alphabetic) && !is_hex
}

/// What is to be looked up for a span, with `*` for each placeholder; nothing where it is a text.
pub fn key(span: &str) -> Option<String> {
    // A call is about its function.
    let call = span.strip_suffix(')').and_then(|call| call.split_once('('));
    let span = call.map_or(span, |(function, _)| function);
    let is_field = |(owner, field): (&str, &str)| {
        let is_owner = owner.is_empty() || owner.strip_suffix(' ').is_some_and(is_identifier);
        is_owner && is_identifier(field)
    };
    let is_name = span.split("::").all(is_identifier) || span.split_once('.').is_some_and(is_field);
    let mut endings = ENDINGS.split(' ');
    let is_file = span.contains('/') || endings.clone().any(|ending| span.ends_with(ending));
    let allows = |c| is_inner(c) || c == '*' || (is_file && "./".contains(c));
    let is_path = (is_file || span.contains('*')) && span.chars().all(allows);
    let is_text = endings.any(|ending| ending == span) || !span.contains(char::is_alphabetic);
    let any = |key: String, (word, star): &(&str, &str)| key.replace(word, star);
    let key = || PLACEHOLDERS.iter().fold(span.to_string(), any);
    (!is_text && (is_name || is_path)).then(key)
}

#[cfg(test)]
mod tests {
    use super::*;

    #[test]
    fn spans_of_a_document() {
        let found = lines("a `b` c `d`\n```sh\n`e`\n```\n`f");
        assert_eq!(found[0], (1, vec!["a ", "b", " c ", "d", ""]));
        assert_eq!(found[1..], [(5, vec!["", "f"])]);
    }

    #[test]
    fn keys() {
        let same =
            "gate/specs/Offer.antt|.ci/run|Demand2.antt|docs/NAMES.md|specs/|bad_*|gate::offer|\
            Side::Guest|Moved .held|.used-up|demand-1′|held₁|bad|_also_";
        for span in same.split('|') {
            assert_eq!(key(span).as_deref(), Some(span));
        }
        assert_eq!(key("gate::offer(a, b)").as_deref(), Some("gate::offer"));
        assert_eq!(key("cases/NAME.in").as_deref(), Some("cases/*.in"));
        assert_eq!(key("shared_GG_HH").as_deref(), Some("shared_*_*"));
        let texts = "%|/|*|_||&mut|line=bad|heldAs from 0|[f; 96]|43|0x03|a5ff|-v|.edit|a, b|x && y|a .b c|\
            cond (a) (b)|http://x.y";
        for span in texts.split('|') {
            assert_eq!(key(span), None, "{span}");
        }
    }
}
