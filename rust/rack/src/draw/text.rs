//! The tree drawn for a terminal, a line to a record below a row of names. A child stands three columns to the right of
//! its parent, down to level 12; deeper ones stand there all in one column, each with its level before its card.

use super::heading::Sentence;
use super::tree::{Record, Tree};
use super::walk::Walk;
use super::words::Drawn;

/// The deepest level that is told by indentation, so that a chain stays on the screen.
const INDENTED: usize = 12;

/// The drawing, which ends with the end of a line.
pub fn text(tree: &Tree, walk: Option<&Walk>, sound: bool) -> String {
    let drawn = Drawn::of(tree, walk, sound);
    let mut lines: Vec<String> = drawn.table().into_iter().chain(drawn.search()).map(line).collect();
    if tree.in_order().any(|(_, level)| level > INDENTED) {
        lines.push(format!("Records deeper than level {INDENTED} have their level before the card; the root's is 0."));
    }
    if tree.stored() > 0 {
        lines.push(String::new());
        lines.extend(rows(&drawn));
    }
    if let Some(sentence) = drawn.closing() {
        lines.push(String::new());
        lines.push(line(sentence));
    }
    lines.join("\n") + "\n"
}

fn line(sentence: Sentence) -> String {
    match sentence {
        Sentence::Plain(words) => words,
        Sentence::Warning(words) => format!("*** {words}"),
    }
}

/// The row of names and a row for each record, in columns.
fn rows(drawn: &Drawn) -> Vec<String> {
    let mut cells = vec![["card", "slot", "age", "radius", "away"].map(String::from)];
    let mut reasons = vec![String::new()];
    let mut branches = Branches { last: Vec::new() };
    for (record, level) in drawn.tree.in_order() {
        let away = drawn.distance(record).map_or("-".to_string(), |distance| distance.to_string());
        let card = format!("{}{}", branches.before(drawn.tree, record, level), record.card);
        cells.push([card, record.slot.to_string(), record.age.to_string(), record.radius.to_string(), away]);
        reasons.push(what(drawn, record));
    }
    let wide: [usize; 5] =
        std::array::from_fn(|column| cells.iter().map(|row| row[column].chars().count()).max().unwrap_or(0));
    let shown = if drawn.walk.is_some() { 5 } else { 4 };
    let row = |(cells, reason): (&[String; 5], &String)| {
        let numbers: String = (1..shown).map(|column| format!("  {:>1$}", cells[column], wide[column])).collect();
        format!("{:<1$}{numbers}  {reason}", cells[0], wide[0]).trim_end().to_string()
    };
    cells.iter().zip(&reasons).map(row).collect()
}

/// What the search did at a record, and why.
fn what(drawn: &Drawn, record: &Record) -> String {
    let Some(mark) = drawn.mark(record) else { return String::new() };
    let told = format!("{} {}", mark.sign(), mark.word());
    drawn.reason(record).map_or(told.clone(), |reason| format!("{told}: {reason}"))
}

/// The lines that lead from parents to children.
struct Branches {
    /// For each level below the root on the way to the record: whether it is its parent's last child.
    last: Vec<bool>,
}

impl Branches {
    /// What stands before a record's card.
    fn before(&mut self, tree: &Tree, record: &Record, level: usize) -> String {
        let Some(parent) = record.parent else { return String::new() };
        self.last.truncate(level - 1);
        self.last.push(tree.at(parent).children.last() == Some(&record.slot));
        let (own, above) = (self.last[level - 1], &self.last[..(level - 1).min(INDENTED)]);
        let bars: String = above.iter().map(|last| if *last { "   " } else { "│  " }).collect();
        match (level > INDENTED, own) {
            (true, _) => format!("{bars}{level}: "),
            (false, true) => format!("{bars}└─ "),
            (false, false) => format!("{bars}├─ "),
        }
    }
}
