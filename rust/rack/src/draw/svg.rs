//! The tree drawn for a browser: one picture that needs nothing besides, no script and no font. Above stands what the
//! table holds and what a search did, in the middle the tree, below it how to read it.

use super::boxes::{escaped, id, meaning, wrapped, Frame, SMALL};
use super::heading::Sentence;
use super::layout::Layout;
use super::overview::overview;
use super::tree::Tree;
use super::walk::{Fate, Walk};
use super::words::{Drawn, Mark};
use std::fmt::Write;

/// Around everything.
const MARGIN: i32 = 24;
/// The width of sentences, and the least of a picture's.
const SENTENCES: i32 = 1000;
const LINE: i32 = 22;
const LETTERS: i32 = 15;
/// A title that is longer is cut, since a file's path may be.
const TITLE: usize = 90;
/// A tree that is wider gets an overview, since its root is far from where a browser begins.
const LARGE: i32 = 1600;

/// Colours have words beside them; these are told apart by those who see no red or no green, and in print.
const STYLE: &str = "\
svg{font-family:Arial,'Liberation Sans','DejaVu Sans',sans-serif;color-scheme:light}\
text{font-size:11px;fill:#333}.page{fill:#fff}\
.title{font-size:22px;font-weight:bold;fill:#000}.told{font-size:15px;fill:#111}\
.warning{font-size:17px;font-weight:bold;fill:#fff}.alarm{fill:#a40016}.note{font-size:13px;fill:#333}\
.card{font-size:18px;font-weight:bold;fill:#000;text-anchor:middle}\
.value{font-weight:bold;text-anchor:end}.mark{font-weight:bold;fill:#fff}\
.why{fill:#5c3200}.box{stroke-width:1.5}.line{fill:none;stroke:#555;stroke-width:1.5}\
.plain .box{fill:#f3f6fa;stroke:#55606e}.plain .strip{fill:#55606e}.thin{fill:none;stroke:#999}\
.listed .box{fill:#e0f5e4;stroke:#12672c;stroke-width:3}.listed .strip{fill:#12672c}\
.entered .box{fill:#e6f0fd;stroke:#1d57b0}.entered .strip{fill:#1d57b0}\
.cut .box{fill:#fff4e0;stroke:#96530a}.cut .strip{fill:#96530a}.stop{stroke:#96530a;stroke-width:5}\
.pale .box{fill:#fbfbfb;stroke:#999;stroke-dasharray:4 3}.pale .strip{fill:#a0a0a0}.pale text{fill:#6a6a6a}\
.pale .mark{fill:#444}.line.pale{stroke:#aaa;stroke-dasharray:4 3}\
.link{fill:#1d57b0;text-decoration:underline}\
.missed .box{fill:#fde3e6;stroke:#a40016;stroke-width:3}.missed .strip{fill:#a40016}";

/// The picture.
pub fn svg(title: &str, tree: &Tree, walk: Option<&Walk>, sound: bool) -> String {
    let drawn = Drawn::of(tree, walk, sound);
    let boxes: Vec<Option<Frame>> =
        (0..tree.records()).map(|slot| tree.record(slot).map(|record| Frame::of(&drawn, record))).collect();
    let sized = |slot: usize| boxes[slot].as_ref().expect("every stored card has a box");
    let layout = Layout::of(tree, |record| sized(record.slot).size);
    let mut page = Page { out: String::new(), width: SENTENCES, y: MARGIN };
    page.heading(title, &drawn);
    if layout.width > LARGE || layout.height > LARGE {
        page.links(&drawn);
    }
    if layout.width > LARGE {
        page.overview(&drawn, &layout);
    }
    page.width = page.width.max(layout.width);
    if tree.stored() > 0 {
        let left = MARGIN + (page.width - layout.width) / 2;
        let _ = writeln!(page.out, "<g transform=\"translate({left} {})\">", page.y);
        page.out += &lines(&drawn, &layout);
        for (record, _) in tree.in_order() {
            if let Some(place) = layout.place(record.slot) {
                page.out += &sized(record.slot).drawn(place.left(), place.top, &drawn.full(record));
            }
        }
        page.out += "</g>\n";
        page.y += layout.height + MARGIN;
        page.notes(&drawn);
    }
    page.whole(title)
}

/// The lines from every parent to its children. Below a record that was not entered they are pale, and begin at a bar.
fn lines(drawn: &Drawn, layout: &Layout) -> String {
    let mut out = String::new();
    for (record, _) in drawn.tree.in_order() {
        let children: Vec<_> = record.children.iter().filter_map(|child| layout.place(*child)).collect();
        let (Some(place), Some(first)) = (layout.place(record.slot), children.first()) else { continue };
        let fate = drawn.walk.and_then(|walk| walk.fate(record.slot));
        let entered = matches!(fate, None | Some(Fate::Listed { .. } | Fate::Entered { .. }));
        let lane = layout.lane(first);
        let kind = if entered { "line" } else { "line pale" };
        let _ = write!(out, "<path class=\"{kind}\" d=\"M{} {}V{lane}", place.middle, place.bottom());
        for child in children {
            let _ = write!(out, "M{} {lane}H{}V{}", place.middle, child.middle, child.top);
        }
        out += "\"/>\n";
        if matches!(fate, Some(Fate::NotEntered { .. })) {
            let (from, to, y) = (place.middle - 18, place.middle + 18, place.bottom() + 6);
            let _ = writeln!(out, "<path class=\"stop\" d=\"M{from} {y}H{to}\"/>");
        }
    }
    out
}

/// A picture that grows downwards.
struct Page {
    out: String,
    /// Without the margins.
    width: i32,
    y: i32,
}

impl Page {
    fn line(&mut self, class: &str, height: i32, words: &str) {
        self.y += height;
        let _ = writeln!(self.out, "<text class=\"{class}\" x=\"{MARGIN}\" y=\"{}\">{}</text>", self.y, escaped(words));
    }

    fn heading(&mut self, title: &str, drawn: &Drawn) {
        self.line("title", LINE, &short(title));
        self.y += 6;
        for sentence in drawn.table().into_iter().chain(drawn.search()).chain(drawn.closing()) {
            match sentence {
                Sentence::Plain(words) => {
                    wrapped(&words, LETTERS, SENTENCES).iter().for_each(|line| self.line("told", LINE, line));
                }
                Sentence::Warning(words) => self.warning(&words),
            }
        }
        self.y += 16;
        if drawn.walk.is_some() && drawn.tree.stored() > 0 {
            self.marks(drawn);
        }
        self.y += MARGIN;
    }

    fn warning(&mut self, words: &str) {
        let lines = wrapped(words, LETTERS + 3, SENTENCES - 24);
        let (y, height) = (self.y + 10, 14 + LINE * lines.len() as i32);
        let _ = writeln!(
            self.out,
            "<rect class=\"alarm\" x=\"{MARGIN}\" y=\"{y}\" width=\"{SENTENCES}\" height=\"{height}\" rx=\"4\"/>"
        );
        for (row, line) in (1..).zip(&lines) {
            let (x, y) = (MARGIN + 12, y + LINE * row);
            let _ = writeln!(self.out, "<text class=\"warning\" x=\"{x}\" y=\"{y}\">{}</text>", escaped(line));
        }
        self.y = y + height;
    }

    /// What the marks mean, in a row.
    fn marks(&mut self, drawn: &Drawn) {
        let mut x = MARGIN;
        let missed = drawn.walk.is_some_and(|walk| !walk.missed.is_empty());
        for mark in Mark::ALL.into_iter().filter(|mark| missed || *mark != Mark::Missed) {
            let (out, width) = meaning(mark, x, self.y);
            self.out += &out;
            x += width + MARGIN;
        }
        self.y += LINE;
        self.width = self.width.max(x - MARGIN);
    }

    /// Where one may want to go in a large tree: to the root and to what was looked for.
    fn links(&mut self, drawn: &Drawn) {
        const MOST: usize = 10;
        let wanted = |mark: Option<Mark>| matches!(mark, Some(Mark::Listed | Mark::Missed));
        let found = drawn.tree.in_order().map(|(record, _)| record).filter(|record| wanted(drawn.mark(record)));
        let link =
            |slot: String, words: &str| format!(" <a href=\"#{slot}\"><tspan class=\"link\">{words}</tspan></a>");
        let root = drawn.tree.root().map(|record| link(id(record), "the root")).into_iter();
        let cards = found.take(MOST).map(|record| link(id(record), &format!("card {}", record.card)));
        let all: Vec<String> = root.chain(cards).collect();
        let _ =
            writeln!(self.out, "<text class=\"note\" x=\"{MARGIN}\" y=\"{}\">Go to{}</text>", self.y, all.join(","));
        self.y += MARGIN;
    }

    /// The whole tree made small, so that one sees where to go.
    fn overview(&mut self, drawn: &Drawn, layout: &Layout) {
        self.line("note", 0, "The whole tree, made small: a click on a record leads to it.");
        self.y += 12;
        let (blocks, height) = overview(drawn, layout, SENTENCES);
        let _ = writeln!(self.out, "<g transform=\"translate({MARGIN} {})\">{blocks}</g>", self.y);
        self.y += height + MARGIN;
    }

    /// How to read the picture.
    fn notes(&mut self, drawn: &Drawn) {
        let mut notes = vec![
            "Children stand left to right, oldest first. slot: the record's place in the table. age: its timestamp; a \
             smaller one is older. radius: its covering radius; on a sound table no card below is farther from it.",
        ];
        if drawn.walk.is_some() {
            notes.push("away: how far the card is from what is looked for, where the search worked it out.");
        }
        if drawn.walk.is_some() && drawn.sound {
            notes.extend([
                "reaches R: all below is within R of the record, so it is no nearer than the record's distance less R.",
                "older card C is D away: what is below is younger than C and no nearer to C than to this record, so it \
                 is half the difference of the two distances away, or more.",
                "younger than card C, below card B: the same, for what stands below B, a sibling of C, and is younger \
                 than C.",
            ]);
        }
        for line in notes.iter().flat_map(|note| wrapped(note, 13, SENTENCES)) {
            self.line("note", LINE - 4, &line);
        }
        self.y += MARGIN;
    }

    fn whole(self, title: &str) -> String {
        let (width, height) = (self.width + 2 * MARGIN, self.y + SMALL);
        format!(
            "<svg xmlns=\"http://www.w3.org/2000/svg\" width=\"{width}\" height=\"{height}\" \
             viewBox=\"0 0 {width} {height}\">\n<title>{}</title>\n<style>{STYLE}</style>\n\
             <rect class=\"page\" width=\"{width}\" height=\"{height}\"/>\n{}</svg>\n",
            escaped(title),
            self.out
        )
    }
}

/// A title that fits.
fn short(title: &str) -> String {
    match title.char_indices().nth(TITLE) {
        None => title.to_string(),
        Some((end, _)) => format!("{}..", &title[..end]),
    }
}
