//! The names that exist: files and folders, and what Rattle, antt and Rust sources define.

use std::collections::BTreeSet;
use std::fs;
use std::path::Path;

use crate::spans::is_identifier;

#[derive(Default)]
pub struct Names {
    pub files: BTreeSet<String>,
    pub crates: Vec<String>,
    /// The paths of files and folders, and every end of them.
    paths: BTreeSet<String>,
    /// As `name`, `crate::name`, `crate::Type::Member`, `Type::Member`, `Type .member` and ` .member`;
    /// besides `Type .` of a type with members, and `name : Type` of a definition.
    names: BTreeSet<String>,
}

/// The text is as the pattern says, where `*` is any text without `/`.
pub fn glob(pattern: &str, text: &str) -> bool {
    let Some((head, tail)) = pattern.split_once('*') else {
        return pattern == text;
    };
    text.strip_prefix(head).is_some_and(|rest| {
        let most = rest.find('/').unwrap_or(rest.len());
        (0..=most).any(|i| rest.get(i..).is_some_and(|rest| glob(tail, rest)))
    })
}

impl Names {
    fn member(&mut self, owner: &str, name: &str) {
        let alone = [name.to_string(), format!(" .{name}"), format!("{owner} .")];
        let owned = [format!("{owner}::{name}"), format!("{owner} .{name}")];
        self.names.extend(alone.into_iter().chain(owned));
    }

    /// A source of Rattle; of Rust, which belongs to no crate here, the items alone.
    fn rattle(&mut self, source: &str, owner: &str) {
        const ITEMS: [&str; 5] = ["fn", "struct", "enum", "const", "mod"];
        // The type, and the variant in it, whose braces are open.
        let mut open: Vec<&str> = Vec::new();
        for line in source.lines() {
            let code = line.split("//").next().unwrap_or("").trim();
            let words = code.split(|c: char| !c.is_alphanumeric() && c != '_');
            let before = ["", "pub", "crate", "extern", "C"];
            let mut words = words.skip_while(|word| before.contains(word)).peekable();
            let first = words.peek().copied().unwrap_or("");
            let name = words.find(|word| !ITEMS.contains(word)).unwrap_or("");
            if let Some(outer) = open.last().filter(|_| !name.is_empty()) {
                self.member(outer, name);
                self.names.insert(format!("{owner}::{outer}::{name}"));
            } else if ITEMS.contains(&first) {
                let forms = [name.to_string(), format!("{owner}::{name}")];
                self.names.extend(forms);
            }
            let opens = code.ends_with('{') && !owner.is_empty();
            if opens && (first == "struct" || first == "enum" || !open.is_empty()) {
                open.push(name);
            } else if code.starts_with('}') {
                open.pop();
            }
        }
    }

    /// A source of antt.
    fn antt(&mut self, source: &str) {
        // The record or data type whose lines these are, and how far it is indented.
        let mut open: Option<(usize, &str)> = None;
        for line in source.lines() {
            let code = line.split("--").next().unwrap_or("");
            let before = ["pub", "abbrev", "unfoldable"];
            let words = code.split_whitespace();
            let words: Vec<&str> = words.skip_while(|word| before.contains(word)).collect();
            let indent = code.len() - code.trim_start().len();
            open = open.filter(|(outer, _)| words.is_empty() || indent > *outer);
            let at = words.iter().position(|word| *word == ":").unwrap_or(0);
            match (open, &words[..at], &words[at..]) {
                (_, ["record" | "data", name, ..], _) if is_identifier(name) => {
                    self.names.insert(name.to_string());
                    open = Some((indent, name));
                }
                (_, names, _) if !names.iter().all(|name| is_identifier(name)) => {}
                (Some((_, owner)), names, _) => {
                    names.iter().for_each(|name| self.member(owner, name));
                }
                (None, [name], kind) => {
                    let forms = [name.to_string(), format!("{name} {}", kind.join(" "))];
                    self.names.extend(forms);
                }
                _ => {}
            }
        }
    }

    /// A file, or a folder, whose path then ends with `/`; one word names no folder without it.
    fn path(&mut self, path: &str) {
        let starts = path.match_indices('/').map(|(i, _)| i + 1).chain([0]);
        for end in starts.map(|i| &path[i..]).filter(|end| !end.is_empty()) {
            let bare = end.trim_end_matches('/');
            let is_clear = bare.contains('/');
            self.paths.insert(end.to_string());
            self.paths.extend(is_clear.then(|| bare.to_string()));
        }
    }

    /// All below a folder but what is built, with what the sources define.
    fn walk(&mut self, root: &Path, folder: &str) {
        for entry in fs::read_dir(root.join(folder)).expect("the folder is read") {
            let entry = entry.expect("the folder is read");
            let name = entry.file_name().to_string_lossy().into_owned();
            let path = format!("{folder}{name}");
            if ["target", "out", ".git"].contains(&name.as_str()) {
                continue;
            } else if entry.path().is_dir() {
                self.path(&format!("{path}/"));
                self.walk(root, &format!("{path}/"));
                continue;
            }
            self.path(&path);
            let source = || fs::read_to_string(root.join(&path)).expect("the source is read");
            let parts: Vec<&str> = path.split('/').collect();
            match (&parts[..], name.rsplit('.').next()) {
                (["crates", owner, "src", _], Some("rt")) => self.rattle(&source(), owner),
                (["crates", _, "specs" | "proofs", ..], Some("antt")) => self.antt(&source()),
                // This program's own tests have names that are nowhere.
                (["tests", "names", ..], _) => {}
                (["tests", _, "src", _], Some("rs")) => self.rattle(&source(), ""),
                (["bench", "src", _], Some("rs")) => self.rattle(&source(), ""),
                _ => {}
            }
            self.files.insert(path);
        }
    }

    pub fn collect(root: &Path) -> Names {
        let mut names = Names::default();
        names.walk(root, "");
        let list = fs::read_to_string(root.join("crates.txt")).expect("the crates are read");
        let crates = list.lines().filter_map(|line| line.split_once(':'));
        let crates = crates.map(|(name, below)| (name.trim_end_matches(" staticlib"), below));
        let crates = crates.filter(|(name, _)| is_identifier(name));
        names.crates = crates.map(|(name, _)| name.to_string()).collect();
        names.names.extend(names.crates.iter().cloned());
        names
    }

    /// The name of a type with members.
    pub fn is_owner(&self, name: &str) -> bool {
        self.names.contains(&format!("{name} ."))
    }

    pub fn has(&self, key: &str) -> bool {
        let like = |pattern: &str| self.paths.iter().any(|path| glob(pattern, path));
        if let Some((name, field)) = key.split_once(" .") {
            let start = format!("{name} : ");
            let known = self.names.iter();
            let kinds = known.filter_map(|known| known.strip_prefix(&start));
            let mut owners = kinds.chain([name]);
            return owners.any(|owner| self.names.contains(&format!("{owner} .{field}")));
        }
        if let Some((owner, label)) = key.split_once('/') {
            return like(key) || like(&format!("crates/{owner}/must-fail/{label}.edit"));
        }
        // A pattern of names is about captures and cases.
        let is_stem = ["captures", "cases"].map(|folder| like(&format!("{folder}/{key}.*")));
        let is_path = (key.contains('.') || !key.contains('*')) && like(key);
        self.names.contains(key) || is_path || is_stem.contains(&true)
    }
}

#[cfg(test)]
mod tests {
    use super::*;
    use crate::spans::key;

    const RATTLE: &str = "// fn in_a_comment() is none
        pub enum Side {
            Guest,
            Bulk {
                length: u32, // enum Nor
            },
            Of(u8),
        }
        pub struct Row(pub u8);
        const SIZES: [u8; 2] = [1, 2];
        pub extern \"C\" fn judge(side: Side) -> u8
            ensures { λ r. ⌜ r ≡ judged side ⌝ }
        {
            let inner = 1;
        }";
    const ANTT: &str = "-- gone : ℕ
abbrev pub heldOf : Side → ℕ
heldOf s = other s
pub data Sender : Type 0 where
  G H : Sender
  bit′ : ℕ → Sender  -- last : ℕ
unfoldable pub _also_ : ℕ
module _ (N : Wire) where
  pub record Kept (x y : N .X) : Type 0 where
    pub ctx : x ≡ y

    -- a comment
    pub held₁ : ℕ
  kept-1 : Kept
  kept-1 = go
    where
      go : (b : Bool) → T
      go b = let inner : ℕ = 1 in
        record { ctx = λ (c : ℕ). c;
          more : ℕ";

    #[test]
    fn found_and_missing() {
        let mut names = Names::default();
        names.rattle(RATTLE, "gate");
        names.rattle("pub fn run() {}\nenum Mode {\n    Fast,\n}", "");
        names.antt(ANTT);
        let paths =
            "crates/gate/specs/ crates/gate/specs/Offer.antt tests/report/cases/shared_00_ff.in \
            crates/gate/must-fail/both_wait.edit crates/gate/proofs/shared_set/";
        paths.split(' ').for_each(|path| names.path(path));
        let there = "Side|Guest|Bulk|length|Of|Row|SIZES|judge|run|Mode|heldOf|Sender|G|H|bit′|_also_|Kept|ctx|\
            held₁|kept-1|go|gate::judge(s)|Side::Of|gate::Side::Bulk|Bulk::length|Kept .ctx|kept-1 .held₁|\
            crates/gate/specs/Offer.antt|gate/specs/Offer.antt|Offer.antt|specs/|crates/*/specs|*.antt|\
            gate/both_wait|gate/both_*|shared_GG_HH|shared_00*|shared_00_ff";
        for span in there.split('|') {
            assert!(names.has(&key(span).unwrap()), "{span}");
        }
        let missing = "in_a_comment|Nor|judged|side|inner|u8|Fast|gone|last|other|N|x|b|heldO|heldOf′|T|\
            gate::heldOf|gate::Guest|wire::judge|gate::Row::Of|Side::ctx|Kept .Of|heldOf .ctx|Gone .ctx|\
            Offer.rt|ffer.antt|gate/Offer.antt|Offer.antt/|spec/|specs|crates/*/Offer.antt|both_wait|gate/both|\
            wire/both_wait|both_*|shared_s*|shared_*_0|hared_GG_HH";
        for span in missing.split('|') {
            assert!(!names.has(&key(span).unwrap()), "{span}");
        }
        assert!(names.has(" .ctx") && !names.has(" .Kept") && !names.has(" .more"));
        assert!(names.is_owner("Kept") && !names.is_owner("ctx"));
    }

    #[test]
    fn patterns() {
        assert!(glob("a*c*", "abc") && glob("*", "") && glob("a**′", "a₁′"));
        assert!(!glob("a*c", "abcd") && !glob("a*a", "a") && !glob("docs/*.md", "docs/x/A.md"));
    }
}
