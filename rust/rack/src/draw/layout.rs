//! Where each record's box stands: the root on top, a level to a row, children left to right oldest first, a parent
//! over the middle of its children, and no two boxes on each other.

use super::tree::{Record, Tree};

/// Between two children of one record.
const BETWEEN_SIBLINGS: i32 = 14;
/// Between two other records of a row.
const BETWEEN_FAMILIES: i32 = 30;
/// Between two rows, for the lines from parents to children.
const BETWEEN_ROWS: i32 = 36;

/// How large a box is.
#[derive(Clone, Copy, Debug, PartialEq, Eq)]
pub struct Size {
    pub width: i32,
    pub height: i32,
}

/// Where a box stands: the middle of its upper edge, and its size.
#[derive(Clone, Copy, Debug, PartialEq, Eq)]
pub struct Place {
    pub middle: i32,
    pub top: i32,
    pub size: Size,
}

impl Place {
    pub fn left(&self) -> i32 {
        self.middle - self.size.width / 2
    }

    pub fn right(&self) -> i32 {
        self.left() + self.size.width
    }

    pub fn bottom(&self) -> i32 {
        self.top + self.size.height
    }
}

/// The places of all records of a tree, from 0 on in both directions.
#[derive(Clone, Debug)]
pub struct Layout {
    /// By slot; none for free ones.
    places: Vec<Option<Place>>,
    pub width: i32,
    pub height: i32,
}

impl Layout {
    /// Places boxes of these sizes.
    pub fn of(tree: &Tree, size: impl Fn(&Record) -> Size) -> Layout {
        let sizes: Vec<Option<Size>> = (0..tree.records()).map(|slot| tree.record(slot).map(&size)).collect();
        // Packed to the left, what is small leans to the left; the mean of both packings leans to neither side, and
        // keeps every distance that both keep.
        let (left, right) = (packed(tree, &sizes, false), packed(tree, &sizes, true));
        let tops = tops(tree, &sizes);
        let mut layout = Layout { places: vec![None; tree.records()], width: 0, height: 0 };
        for (record, level) in tree.in_order() {
            let Some(size) = sizes[record.slot] else { continue };
            let middle = (left[record.slot] + right[record.slot]).div_euclid(2);
            layout.places[record.slot] = Some(Place { middle, top: tops[level], size });
        }
        let least = layout.places.iter().flatten().map(Place::left).min().unwrap_or(0);
        for place in layout.places.iter_mut().flatten() {
            place.middle -= least;
            layout.width = layout.width.max(place.right());
            layout.height = layout.height.max(place.bottom());
        }
        layout
    }

    /// The place of a record; none for a free slot.
    pub fn place(&self, slot: usize) -> Option<&Place> {
        self.places.get(slot)?.as_ref()
    }

    /// Half the way between a row's lowest boxes and the next row, where lines to children run.
    pub fn lane(&self, child: &Place) -> i32 {
        child.top - BETWEEN_ROWS / 2
    }
}

/// Where each row begins: each is as high as its highest box.
fn tops(tree: &Tree, sizes: &[Option<Size>]) -> Vec<i32> {
    let mut heights = Vec::new();
    for (record, level) in tree.in_order() {
        heights.resize(heights.len().max(level + 1), 0);
        heights[level] = sizes[record.slot].map_or(0, |size| size.height).max(heights[level]);
    }
    let mut top = 0;
    let below = |height: &i32| {
        let here = top;
        top += height + BETWEEN_ROWS;
        here
    };
    heights.iter().map(below).collect()
}

/// How far a record and all below it reach to the left and to the right of its middle in a row.
#[derive(Clone, Copy)]
struct Reach {
    left: i32,
    right: i32,
}

impl Reach {
    fn moved(self, by: i32) -> Reach {
        Reach { left: self.left + by, right: self.right + by }
    }
}

/// The reach in its own row and in every row below.
type Outline = Vec<Reach>;

/// Every middle by slot, each child as near to its elder sibling as the outlines let it; mirrored, as near to its
/// younger one.
fn packed(tree: &Tree, sizes: &[Option<Size>], mirrored: bool) -> Vec<i32> {
    let mut outlines: Vec<Outline> = vec![Vec::new(); tree.records()];
    // By slot: how far its middle is from its parent's.
    let mut beside = vec![0; tree.records()];
    for (record, _) in tree.in_order().rev() {
        let mut children = record.children.clone();
        if mirrored {
            children.reverse();
        }
        let mut all = Outline::new();
        for child in &children {
            let outline = std::mem::take(&mut outlines[*child]);
            beside[*child] = room(&all, &outline);
            widen(&mut all, &outline, beside[*child]);
        }
        let ends = children.first().zip(children.last());
        let middle = ends.map_or(0, |(first, last)| (beside[*first] + beside[*last]).div_euclid(2));
        children.iter().for_each(|child| beside[*child] -= middle);
        let half = sizes[record.slot].map_or(0, |size| (size.width + 1) / 2);
        let below = all.iter().map(|reach| reach.moved(-middle));
        outlines[record.slot] = std::iter::once(Reach { left: -half, right: half }).chain(below).collect();
    }
    let mut middles = vec![0; tree.records()];
    for (record, _) in tree.in_order() {
        let side = if mirrored { -beside[record.slot] } else { beside[record.slot] };
        middles[record.slot] = record.parent.map_or(0, |parent| middles[parent]) + side;
    }
    middles
}

/// The least middle at which this outline stands clear of all those to its left.
fn room(all: &Outline, outline: &Outline) -> i32 {
    let between = std::iter::once(BETWEEN_SIBLINGS).chain(std::iter::repeat(BETWEEN_FAMILIES));
    let rows = all.iter().zip(outline).zip(between);
    rows.map(|((before, behind), between)| before.right - behind.left + between).max().unwrap_or(0)
}

/// Takes in an outline whose middle stands there.
fn widen(all: &mut Outline, outline: &Outline, middle: i32) {
    for (row, new) in outline.iter().map(|reach| reach.moved(middle)).enumerate() {
        match all.get_mut(row) {
            None => all.push(new),
            Some(old) => *old = Reach { left: old.left.min(new.left), right: old.right.max(new.right) },
        }
    }
}
