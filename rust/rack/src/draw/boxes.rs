//! A record's box for the browser: its words in lines, and how large it has to be to hold them. Letters are measured
//! generously, since every browser brings its own.

use super::layout::Size;
use super::tree::Record;
use super::words::{Drawn, Mark};
use std::fmt::Write;

pub const SMALL: i32 = 11;
const LARGE: i32 = 18;
const EDGE: i32 = 8;
const STRIP: i32 = 19;
const ROW: i32 = 15;
/// From a box's upper edge, or its strip, to its rows; the card stands there.
const TOP: i32 = 24;
/// Between the rows and the reason.
const GAP: i32 = 4;
/// So many boxes may be wide.
const FEW: usize = 24;

/// How wide words are in letters of a size: no less than in the widest sans-serif that browsers commonly have.
pub fn wide(words: &str, letters: i32, bold: bool) -> i32 {
    let hundredths = |letter: char| match letter {
        'f' | 'i' | 'j' | 'l' | 'r' | 't' | ' ' | '.' | ',' | ':' | ';' | '(' | ')' => 42,
        'm' | 'w' | 'M' | 'W' => 99,
        'A'..='Z' => 78,
        ' '..='~' => 64,
        _ => 105,
    };
    let bolder = if bold { 7 } else { 0 };
    words.chars().map(|letter| (hundredths(letter) + bolder) * letters).sum::<i32>() / 100 + 1
}

/// Words broken into lines that are no wider than this, but for a word that is itself.
pub fn wrapped(words: &str, letters: i32, width: i32) -> Vec<String> {
    let mut lines: Vec<String> = Vec::new();
    for word in words.split(' ') {
        match lines.last_mut() {
            Some(line) if wide(&format!("{line} {word}"), letters, false) <= width => *line += &format!(" {word}"),
            _ => lines.push(word.to_string()),
        }
    }
    lines
}

/// The same in as few lines, each as short as that lets them be, so that no number stands alone in the last.
fn balanced(words: &str, letters: i32, width: i32) -> Vec<String> {
    let fewest = wrapped(words, letters, width);
    let narrower = (0..width).rev().map(|width| wrapped(words, letters, width));
    narrower.take_while(|lines| lines.len() == fewest.len()).last().unwrap_or(fewest)
}

/// Text as XML holds it. A character that XML can't hold, which a file's name may have, is shown as one unknown.
pub fn escaped(words: &str) -> String {
    let mut safe = String::with_capacity(words.len());
    for letter in words.chars() {
        match letter {
            '&' => safe.push_str("&amp;"),
            '<' => safe.push_str("&lt;"),
            '>' => safe.push_str("&gt;"),
            '"' => safe.push_str("&quot;"),
            '\n' => safe.push('\n'),
            '\u{fffe}' | '\u{ffff}' => safe.push(char::REPLACEMENT_CHARACTER),
            other if other.is_control() => safe.push(char::REPLACEMENT_CHARACTER),
            other => safe.push(other),
        }
    }
    safe
}

/// By what a record's box is led to.
pub fn id(record: &Record) -> String {
    format!("slot{}", record.slot)
}

/// The class that gives a mark its colour.
pub fn class(mark: Option<Mark>) -> &'static str {
    match mark {
        None => "plain",
        Some(Mark::Listed) => "listed",
        Some(Mark::Entered) => "entered",
        Some(Mark::NotEntered) => "cut",
        Some(Mark::NotCompared) => "pale",
        Some(Mark::Missed) => "missed",
    }
}

/// A mark's strip in its colour, from 0 0 on: the head of a box, and round as it is above.
fn strip(mark: Mark, width: i32) -> String {
    let (inner, down) = (width - 8, STRIP - 4);
    let shape = format!("M0 {STRIP}v-{down}a4 4 0 0 1 4-4h{inner}a4 4 0 0 1 4 4v{down}z");
    format!("<path class=\"strip\" d=\"{shape}\"/>{}", word(mark))
}

fn word(mark: Mark) -> String {
    format!("<text class=\"mark\" x=\"{EDGE}\" y=\"14\">{} {}</text>", mark.sign(), mark.word())
}

fn strip_width(mark: Mark) -> i32 {
    2 * EDGE + wide(mark.sign(), SMALL, true) + wide(" ", SMALL, true) + wide(mark.word(), SMALL, true)
}

/// A mark with what it means, from there on to the right; and how wide that is.
pub fn meaning(mark: Mark, left: i32, top: i32) -> (String, i32) {
    let means = match mark {
        Mark::Listed => "within the radius",
        Mark::Entered => "its children compared",
        Mark::NotEntered => "compared; cut off here",
        Mark::NotCompared => "below one cut off",
        Mark::Missed => "near, and walked past",
    };
    let width = strip_width(mark);
    let shape = if mark == Mark::NotCompared { "box" } else { "strip" };
    let out = format!(
        "<g class=\"{}\" transform=\"translate({left} {top})\"><rect class=\"{shape}\" width=\"{width}\" \
         height=\"{STRIP}\" rx=\"4\"/>{}<text class=\"note\" x=\"{}\" y=\"14\">{means}</text></g>\n",
        class(Some(mark)),
        word(mark),
        width + 6
    );
    (out, width + 6 + wide(means, 13, false))
}

/// What a box holds.
pub struct Frame {
    id: String,
    class: &'static str,
    strip: Option<Mark>,
    card: String,
    rows: Vec<(&'static str, String)>,
    reason: Vec<String>,
    pub size: Size,
}

impl Frame {
    pub fn of(drawn: &Drawn, record: &Record) -> Frame {
        let card = record.card.to_string();
        let mut rows = vec![
            ("slot", record.slot.to_string()),
            ("age", record.age.to_string()),
            ("radius", record.radius.to_string()),
        ];
        rows.extend(drawn.distance(record).map(|distance| ("away", distance.to_string())));
        let mark = drawn.mark(record);
        // What was not compared has no strip: it is most of a large tree, and should be narrow and draw no eye.
        let strip = mark.filter(|mark| *mark != Mark::NotCompared);
        let row = |(name, value): &(&str, String)| wide(name, SMALL, false) + SMALL + wide(value, SMALL, true);
        let inner = rows.iter().map(row).chain([wide(&card, LARGE, true)]).max().unwrap_or(0);
        let words = match (strip, drawn.reason(record)) {
            (None, Some(reason)) => {
                mark.map_or(String::new(), |mark| format!("{} {}, {reason}", mark.sign(), mark.word()))
            }
            (_, reason) => reason.unwrap_or_default(),
        };
        // Where records are many, a reason takes more and narrower lines.
        let lines = if drawn.tree.stored() > FEW { 6 } else { 3 };
        let least = words.split(' ').map(|word| wide(word, SMALL, false)).max().unwrap_or(0);
        let wanted = if strip.is_some() { wide(&words, SMALL, false) / lines + 20 } else { 0 };
        let width = (2 * EDGE + inner.max(least).max(wanted)).max(strip.map_or(0, strip_width));
        let reason = if words.is_empty() { Vec::new() } else { balanced(&words, SMALL, width - 2 * EDGE) };
        let below = if reason.is_empty() { 0 } else { GAP + ROW * reason.len() as i32 };
        let height = strip.map_or(0, |_| STRIP) + TOP + ROW * rows.len() as i32 + below + EDGE;
        Frame { id: id(record), class: class(mark), strip, card, rows, reason, size: Size { width, height } }
    }

    /// The box with its upper left corner there, and a tooltip that tells all.
    pub fn drawn(&self, left: i32, top: i32, full: &[String]) -> String {
        let Size { width, height } = self.size;
        let (id, class) = (&self.id, self.class);
        let mut out = format!("<g id=\"{id}\" class=\"{class}\" transform=\"translate({left} {top})\">");
        let _ = write!(out, "<title>{}</title>", escaped(&full.join("\n")));
        let _ = write!(out, "<rect class=\"box\" width=\"{width}\" height=\"{height}\" rx=\"4\"/>");
        let mut y = 0;
        if let Some(mark) = self.strip {
            out += &strip(mark, width);
            y += STRIP;
        }
        let (middle, end) = (width / 2, width - EDGE);
        let _ = write!(out, "<text class=\"card\" x=\"{middle}\" y=\"{}\">{}</text>", y + LARGE + 2, self.card);
        y += TOP;
        for (name, value) in &self.rows {
            y += ROW;
            let _ = write!(out, "<text x=\"{EDGE}\" y=\"{}\">{name}</text>", y - 2);
            let _ = write!(out, "<text class=\"value\" x=\"{end}\" y=\"{}\">{value}</text>", y - 2);
        }
        y += GAP;
        for line in &self.reason {
            y += ROW;
            let _ = write!(out, "<text class=\"why\" x=\"{EDGE}\" y=\"{}\">{}</text>", y - 2, escaped(line));
        }
        out + "</g>\n"
    }
}
