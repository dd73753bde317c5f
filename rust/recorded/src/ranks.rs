//! The table of operators in docs/FORMAT.md, turned into sheets that try its ranks.

use crate::format::{Row, table};
use crate::parse::bytes;

/// A sheet, and the rows of its last term by the table.
#[derive(Debug, Clone, PartialEq, Eq)]
pub struct Ranked {
    /// The sheet.
    pub sheet: Vec<u8>,
    /// The text of the inferred row, where the table has a sort for all arguments.
    pub inferred: Option<String>,
    /// The text of the checked row.
    pub checked: String,
}

impl Ranked {
    /// Whether a printout of the sheet ends in these rows.
    pub fn is_in(&self, printout: &str) -> bool {
        let (_, last) = printout.lines().last().and_then(|line| line.split_once(' ')).unwrap_or_default();
        match &self.inferred {
            Some(inferred) => last == format!("{inferred} {}", self.checked),
            None => last.ends_with(&format!(" {}", self.checked)),
        }
    }
}

/// Sorts without parts, and one that fits no rank: the word that the table has for it, its text, its record.
const PLAIN: [(&str, &str, &str); 11] = [
    ("Bool", "Bool", "01 03"),
    ("Int", "Int", "01 04"),
    ("Real", "Real", "01 05"),
    ("String", "String", "01 06"),
    ("RegLan", "RegLan", "01 07"),
    ("A", "n1", "13 01 01 00 00"),
    ("X", "n2", "13 01 02 00 00"),
    ("Y", "n3", "13 01 03 00 00"),
    ("BV m", "(_ BitVec 8)", "05 09 08 00 00 00"),
    ("BV n", "(_ BitVec 3)", "05 09 03 00 00 00"),
    // Fits no rank beside the others.
    ("another", "n9", "13 01 09 00 00"),
];

/// Kinds of sorts with parts: the word in front of them, the number of the kind.
const COMPOUND: [(&str, u8); 4] = [("Function", 0), ("Array", 8), ("Set", 14), ("Tuple", 15)];

/// A parametric sort, which fits no rank: its text, the word of its part, its record behind the bytes of the list.
const PARAMETRIC: (&str, &str, [u8; 3]) = ("(par (n9) (->))", "(Function)", [1, 9, 0]);

/// The word for it.
const PAR: &str = "parametric";

/// The text of a sort by its word; of a Tuple and a Set by those of its parts.
fn sort_text(word: &str) -> String {
    if word == PAR {
        return PARAMETRIC.0.to_owned();
    }
    if let Some((_, text, _)) = PLAIN.iter().find(|(known, _, _)| *known == word) {
        return (*text).to_owned();
    }
    let (kind, parts) = compound(word);
    let parts: String = parts.iter().map(|part| format!(" {}", sort_text(part))).collect();
    format!("({kind}{parts})")
}

/// The kind and the parts of a sort in parentheses.
fn compound(word: &str) -> (&str, Vec<String>) {
    let inner = word.strip_prefix('(').and_then(|word| word.strip_suffix(')'));
    let inner = inner.unwrap_or_else(|| panic!("no sort {word}"));
    let (kind, parts) = inner.split_once(' ').unwrap_or((inner, ""));
    (kind, listed(parts))
}

/// The sorts of a list, such as `(Array X Y) X`.
fn listed(words: &str) -> Vec<String> {
    let mut sorts: Vec<String> = Vec::new();
    let mut open = 0;
    for word in words.split_whitespace() {
        match sorts.last_mut() {
            Some(last) if open > 0 || last == "BV" => *last = format!("{last} {word}"),
            _ => sorts.push(word.to_owned()),
        }
        open += word.matches('(').count();
        open -= word.matches(')').count();
    }
    sorts
}

/// The sort records of a sheet in the making, each with its word.
#[derive(Default)]
struct Sorts(Vec<(String, Vec<u8>)>);

impl Sorts {
    /// The number of a sort, which is added behind its parts if it is not there.
    fn number(&mut self, word: &str) -> u8 {
        let plain = PLAIN.iter().find(|(known, _, _)| *known == word);
        let record = match plain {
            Some((_, _, record)) => bytes(record),
            None if word == PAR => [&[0x51, 12, 1, self.number(PARAMETRIC.1), 0], PARAMETRIC.2.as_slice()].concat(),
            None => {
                let (kind, parts) = compound(word);
                let (_, kind) = COMPOUND.iter().find(|(known, _)| *known == kind).expect("a kind with parts");
                let numbers: Vec<u8> = parts.iter().flat_map(|part| [self.number(part), 0]).collect();
                [&[0x11, *kind, u8::try_from(parts.len()).expect("few")], numbers.as_slice()].concat()
            }
        };
        let at = self.0.iter().position(|(known, _)| known == word).unwrap_or(self.0.len());
        if at == self.0.len() {
            self.0.push((word.to_owned(), record));
        }
        u8::try_from(at).expect("few")
    }
}

/// The sheet of an operator at variables of these sorts.
fn sheet(operator: u8, arguments: &[String]) -> Vec<u8> {
    let mut sorts = Sorts::default();
    let variables: Vec<u8> = arguments.iter().flat_map(|word| [11, 5, 100, 0, sorts.number(word), 0]).collect();
    let [sort_count, count] = [sorts.0.len(), arguments.len()].map(|count| u8::try_from(count).expect("few"));
    let mut sheet = vec![sort_count, 0, count + 1, 0, 0, 0];
    sheet.extend(sorts.0.iter().flat_map(|(_, record)| record));
    sheet.extend(variables);
    sheet.extend([21, 7, operator, 0, 0, 0, count]);
    sheet.extend((0..count).flat_map(|term| [term, 0]));
    sheet
}

/// The text of a result, by the table's word for it and the arguments.
fn result(word: &str, arguments: &[String]) -> String {
    match word {
        "Real if an argument is, else Int" if arguments.iter().any(|sort| sort == "Real") => "Real".to_owned(),
        "Real if an argument is, else Int" => "Int".to_owned(),
        "(Tuple ..) of the arguments' sorts" => sort_text(&filled("(Tuple R..)", &[("R..", &arguments.join(" "))])),
        "BV m+n" => "(_ BitVec 11)".to_owned(),
        "BV 1" => "(_ BitVec 1)".to_owned(),
        _ => sort_text(word),
    }
}

/// Words with others in the place of some, which may be none.
fn filled(words: &str, places: &[(&str, &str)]) -> String {
    let filled = places.iter().fold(words.to_owned(), |words, (place, sorts)| words.replace(place, sorts));
    filled.replace(" )", ")").replace("  ", " ")
}

/// The words of a row with columns in the place of `R..` and `S..`, and those of R backwards in the place of `..R`: none, one and two, each with
/// none and one. A row without such a place as it is.
fn with_columns(words: [&str; 2]) -> Vec<[String; 2]> {
    if !words[0].contains("R..") {
        return vec![words.map(str::to_owned)];
    }
    let mut all = Vec::new();
    for (columns, backwards) in [("", ""), ("X", "X"), ("X Y", "Y X")] {
        for others in ["", "Bool"] {
            all.push(words.map(|words| filled(words, &[("R..", columns), ("..R", backwards), ("S..", others)])));
        }
    }
    all
}

/// All lists of so many of these sorts.
fn mixed(sorts: &[String], count: usize) -> Vec<Vec<String>> {
    (0..count).fold(vec![Vec::new()], |lists, _| {
        lists
            .iter()
            .flat_map(|list| sorts.iter().map(|sort| [list.as_slice(), std::slice::from_ref(sort)].concat()))
            .collect()
    })
}

/// The lists of arguments that an operator takes, by the columns for arguments and count; for `n+` with n and with n + 1.
fn taken(arguments: &str, count: &str) -> Vec<Vec<String>> {
    let least: usize = count.trim_end_matches('+').parse().expect("a count");
    if arguments == "none" {
        assert_eq!(count, "0");
        return vec![Vec::new()];
    }
    // `all A`, or `each A or B`: of these each by itself. `all A, then B`: another last.
    let sorts = arguments.strip_prefix("all ").or_else(|| arguments.strip_prefix("each "));
    let Some(sorts) = sorts else {
        let list = listed(arguments);
        assert_eq!(count, list.len().to_string(), "{arguments}");
        return vec![list];
    };
    assert!(count.ends_with('+'), "{arguments}");
    let (sorts, last) =
        sorts.split_once(", then ").map_or((sorts, None), |(sorts, last)| (sorts, Some(last.to_owned())));
    let sorts: Vec<String> = match sorts {
        ANY => ["A", "(Set X)"].map(str::to_owned).to_vec(),
        sorts => sorts.split(" or ").map(str::to_owned).collect(),
    };
    let counts = [least, least + 1].map(|count| count - usize::from(last.is_some()));
    let lists = counts.iter().flat_map(|count| mixed(&sorts, *count));
    lists.map(|list| list.into_iter().chain(last.clone()).collect()).collect()
}

/// What the table has where each argument may be of any sort but a Par.
const ANY: &str = "any sort";

/// These arguments with another sort in the place of one that stands there more than once, such as a column that touches an equal one: for each
/// such place.
fn disagreeing(list: &[String]) -> Vec<Vec<String>> {
    let words = list.join(" ").replace('(', "( ").replace(')', " )");
    let words: Vec<&str> = words.split(' ').collect();
    let mut found = Vec::new();
    for (at, word) in words.iter().enumerate() {
        let again = words.iter().filter(|other| *other == word).count() > 1;
        if again && ["A", "X", "Y"].contains(word) {
            let mut others = words.clone();
            others[at] = "another";
            found.push(listed(&others.join(" ").replace("( ", "(").replace(" )", ")")));
        }
    }
    found
}

/// The sheets of an operator with a rank: what it takes, an argument less, an argument more where that is too many, another sort or a parametric
/// one last, and another sort where two are to be one.
fn ranked(operator: u8, row: &Row) -> Vec<Ranked> {
    let [_, arguments, count, word, inferred] = &row[..] else {
        panic!("five cells: {row:?}");
    };
    with_columns([arguments, word])
        .iter()
        .flat_map(|[arguments, word]| tried(operator, arguments, count, word, inferred))
        .collect()
}

/// The same by the cells of a row.
fn tried(operator: u8, arguments: &str, count: &str, word: &str, inferred: &str) -> Vec<Ranked> {
    let case = |arguments: &[String], checked: &str| {
        let inferred = (inferred == "same").then(|| result(word, arguments));
        Ranked { sheet: sheet(operator, arguments), inferred, checked: checked.to_owned() }
    };
    let any = arguments == "A" || arguments.ends_with(ANY);
    let mut all = Vec::new();
    let lists = taken(arguments, count);
    for list in &lists {
        all.push(case(list, &result(word, list)));
        if !any {
            all.extend(disagreeing(list).iter().map(|list| case(list, "!26")));
        }
        if let Some((_, front)) = list.split_last() {
            let misfits = [PAR, "another"].map(str::to_owned);
            all.extend(
                misfits
                    .iter()
                    .take(if any { 1 } else { 2 })
                    .map(|last| case(&[front, std::slice::from_ref(last)].concat(), "!26")),
            );
        }
    }
    let least = &lists[0];
    if let Some((_, front)) = least.split_last() {
        all.push(case(front, "!25"));
    }
    if !count.ends_with('+') {
        all.push(case(&[least.as_slice(), &["Int".to_owned()]].concat(), "!25"));
    }
    all
}

/// The sheet of an operator without a rank: no arguments.
fn unranked(operator: u8, row: &Row) -> Ranked {
    let plain = PLAIN.iter().find(|(word, _, _)| *word == row[4]);
    let inferred = plain.map(|(_, text, _)| (*text).to_owned());
    Ranked { sheet: sheet(operator, &[]), inferred, checked: "!24".to_owned() }
}

/// The sheets that try the whole table of operators.
///
/// # Panics
/// If the table is not of its form.
pub fn sheets() -> Vec<Ranked> {
    let mut all = Vec::new();
    for row in table("Operators") {
        for operator in row[0].split(", ") {
            let number = operator.split(' ').next().expect("a number first").parse().expect("a number");
            match row[1].as_str() {
                "no rank" => all.push(unranked(number, &row)),
                _ => all.extend(ranked(number, &row)),
            }
        }
    }
    all
}
