//! Numbers of the documents: the totals of the captures.

use std::collections::BTreeMap;

/// For each test nothing, or the line and what is wrong.
type Results = Vec<Result<(), String>>;

/// The cells of the first table from the wanted line on, its header's first; those at the ends are empty.
fn table(document: &str, wanted: impl Fn(&str) -> bool) -> Vec<(usize, Vec<&str>)> {
    let lines = (1..).zip(document.lines());
    let lines = lines.skip_while(|(_, line)| !wanted(line));
    let lines = lines.skip_while(|(_, line)| !line.starts_with('|'));
    let rows = lines.take_while(|(_, line)| line.starts_with('|'));
    rows.map(|(i, line)| (i, line.split('|').map(str::trim).collect()))
        .collect()
}

/// Each row, as its line, its name and what it says, is wanted, and none is missing.
fn agree(rows: Vec<(usize, &str, String)>, mut wanted: BTreeMap<String, String>) -> Results {
    let mut results = Vec::new();
    for (line, name, said) in rows {
        let name = name.trim_matches('`');
        results.push(match wanted.remove(name) {
            Some(right) if right == said => Ok(()),
            Some(right) => Err(format!("{line}: {name} should say {right}, says {said}")),
            None => Err(format!("{line}: {name} is unknown or has a row already")),
        });
    }
    let missing = wanted.into_keys();
    results.extend(missing.map(|name| Err(format!(" {name} has no row"))));
    results
}

/// The table of all captures, and what the text says of the capture that it named last.
pub fn captures(document: &str, totals: &str) -> Results {
    let totals = totals.lines().filter(|line| !line.starts_with('#'));
    let totals: BTreeMap<&str, &str> = totals.filter_map(|line| line.split_once(' ')).collect();
    let mut wanted = BTreeMap::new();
    for (name, counts) in &totals {
        let cells = counts.split(' ').filter_map(|word| word.split_once('='));
        let cells: String = cells.map(|(_, count)| format!("{count} | ")).collect();
        let numbers = counts.split(' ').filter_map(|word| word.split_once(':'));
        let refusals = numbers.filter(|(number, _)| !["0", "1", "2", "3"].contains(number));
        let refusals = refusals.map(|(number, count)| format!("{number} ({count})"));
        let refusals = refusals.collect::<Vec<_>>().join(", ");
        wanted.insert(name.to_string(), format!("{cells}{refusals} | "));
    }
    let rows = table(document, |line| line == "## All captures");
    let rows = rows.iter().skip(2);
    let rows = rows.map(|(line, cells)| (*line, cells[1], cells[2..].join(" | ")));
    let mut results = agree(rows.collect(), wanted);

    const KEYS: [&str; 3] = ["passed=", "refused=", "stopped="];
    let mut last = ("no capture", "");
    for (line, text) in (1..).zip(document.lines()) {
        for word in text.split(|c: char| !c.is_alphanumeric() && !"=_".contains(c)) {
            last = totals.get(word).map_or(last, |counts| (word, counts));
            if KEYS.iter().any(|key| word.starts_with(key)) {
                let agrees = last.1.split(' ').any(|right| right == word);
                let wrong = || format!("{line}: {word} is not in the totals of {}", last.0);
                results.push(agrees.then_some(()).ok_or_else(wrong));
            }
        }
    }
    results
}

#[cfg(test)]
mod tests {
    use super::*;

    const TOTALS: &str = "# capture\na1 passed=5 refused=3 stopped=1 0:5 1:9 10:1 25:2\n\
        b_2 passed=1 refused=0 stopped=0 0:1";
    const HEAD: &str = "\n\n## All captures\n\n| capture | p | r | s | n |\n|---|---|---|\n";
    const ROWS: [&str; 2] = [
        "| `a1` | 5 | 3 | 1 | 10 (1), 25 (2) |\n",
        "| `b_2` | 1 | 0 | 0 |  |\n",
    ];

    fn counted(results: Results, tests: usize, wrong: usize) {
        let found = results.iter().filter(|result| result.is_err()).count();
        assert_eq!((results.len(), found), (tests, wrong), "{results:?}");
    }

    #[test]
    fn totals_of_captures() {
        let rows = |rows: &str, tests, wrong| {
            let document = format!("{HEAD}{}{rows}", ROWS[0]);
            counted(captures(&document, TOTALS), tests, wrong);
        };
        counted(captures("", TOTALS), 2, 2);
        rows(ROWS[1], 2, 0);
        rows("", 2, 1);
        rows("| `b_2` | 2 | 0 | 0 |  |\n", 2, 1);
        rows("| `b_2` | 1 | 0 | 0 | 25 (1) |\n", 2, 1);
        rows("| `b_2` | 1 | 0 |\n", 2, 1);
        rows("| `c3` | 1 | 0 | 0 |  |\n|\n", 4, 3);
        rows(&ROWS.concat(), 3, 1);
        let said = |text: &str, tests, wrong| {
            let document = format!("{text}{HEAD}{}", ROWS.concat());
            counted(captures(&document, TOTALS), tests, wrong);
        };
        said("`a1`: passed=5 refused=3. `b_2`,\n so (passed=1, no)", 5, 0);
        said("`a1`: passed=5 refused=30", 4, 1);
        said("`a1`, `b_2` (passed=5)", 3, 1);
        said("passed=5 of `a1`", 3, 1);
    }
}
