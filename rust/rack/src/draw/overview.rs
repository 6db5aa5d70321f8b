//! A wide tree made small, a block to a record: one sees where the search went, and a click leads there. A browser
//! begins at the left, and the root of 1,024 cards is far from it.

use super::boxes::{class, id};
use super::layout::Layout;
use super::words::{Drawn, Mark};
use std::fmt::Write;

/// From row to row, where there is room for all of them.
const ROW: f64 = 17.0;
const HEIGHT: f64 = 400.0;

/// The blocks of a layout, so wide, from 0 0 on; and how high they stand.
pub fn overview(drawn: &Drawn, layout: &Layout, width: i32) -> (String, i32) {
    let scaled = |x: i32| f64::from(x) * f64::from(width) / f64::from(layout.width);
    let rows = drawn.tree.in_order().map(|(_, level)| level + 1).max().unwrap_or(1) as f64;
    let row = ROW.min(HEIGHT / rows);
    let high = 0.55 * row;
    let (mut lines, mut blocks, mut above) = (String::new(), String::new(), String::new());
    for (record, level) in drawn.tree.in_order() {
        let Some(place) = layout.place(record.slot) else { continue };
        let (x, y) = (scaled(place.middle), row * level as f64);
        let mark = drawn.mark(record);
        // What was looked for can be seen among a thousand.
        let found = matches!(mark, Some(Mark::Listed | Mark::Missed));
        let (least, more) = if found { (5.0, 0.2 * row) } else { (1.5, 0.0) };
        let wide = scaled(place.size.width).max(least);
        let _ = writeln!(
            if found { &mut above } else { &mut blocks },
            "<a href=\"#{}\" class=\"{}\"><rect class=\"strip\" x=\"{:.1}\" y=\"{:.1}\" width=\"{wide:.1}\" \
             height=\"{:.1}\"/></a>",
            id(record),
            class(mark),
            x - wide / 2.0,
            y - more,
            high + 2.0 * more
        );
        let ends = [record.children.first(), record.children.last()].map(|child| layout.place(*child?));
        if let [Some(first), Some(last)] = ends {
            let (from, lane, to) = (scaled(first.middle), y + 0.75 * row, scaled(last.middle));
            let _ = write!(lines, "M{x:.1} {:.1}V{lane:.1}M{from:.1} {lane:.1}H{to:.1}", y + high);
        }
    }
    (format!("<path class=\"thin\" d=\"{lines}\"/>\n{blocks}{above}"), (row * rows) as i32)
}
