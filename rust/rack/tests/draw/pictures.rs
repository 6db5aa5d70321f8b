//! What the pictures hold, for a browser and for a terminal, and where their boxes stand.

use crate::{all, chain, listing, one, Source};
use plotvuga::{Signature, Table, MOST_RECORDS, RECORD};
use rack::draw::layout::{Layout, Place, Size};
use rack::draw::{svg, text, Record, Tree, Walk};
use std::collections::HashSet;

/// Sees that every tag is closed by its own kind, in turn, and that no other text has a bare sign of XML's.
fn is_well_formed(picture: &str) {
    let mut open: Vec<&str> = Vec::new();
    let mut rest = picture;
    while let Some((before, after)) = rest.split_once('<') {
        assert!(!before.contains('>') && (!open.is_empty() || before.trim().is_empty()), "{before}");
        assert!(before
            .split('&')
            .skip(1)
            .all(|word| ["amp;", "lt;", "gt;", "quot;"].iter().any(|e| word.starts_with(e))));
        let (tag, behind) = after.split_once('>').expect("a tag ends");
        assert!(tag.matches('"').count() % 2 == 0, "{tag}");
        match tag.strip_prefix('/') {
            Some(name) => assert_eq!(open.pop(), Some(name)),
            None if tag.ends_with('/') => {}
            None => open.push(tag.split(' ').next().unwrap()),
        }
        rest = behind;
    }
    assert!(open.is_empty() && rest.trim().is_empty(), "{open:?}");
    let named = |before| picture.split(before).skip(1).map(|rest: &str| rest.split('"').next().unwrap());
    let ids: HashSet<&str> = named(" id=\"").collect();
    assert!(named(" href=\"#").all(|id| ids.contains(id)), "a link leads to a box");
    assert!(picture.chars().all(|letter| letter == '\n' || !letter.is_control()));
}

/// What a picture says outside its tags, a space where a tag stood: a sentence may be broken into lines.
fn said(picture: &str) -> String {
    let words = picture.split('<').filter_map(|part| Some(part.split_once('>')?.1.trim()));
    words.filter(|words| !words.is_empty()).collect::<Vec<_>>().join(" ")
}

/// What both drawings of a table say, with a search or none; each card is in both.
fn drawn(table: &Table, search: Option<(Signature, u32)>) -> (String, String) {
    let tree = Tree::of(table.bytes()).unwrap();
    let walk = search.map(|(query, radius)| Walk::of(&tree, &query, radius).unwrap());
    let sound = table.check().is_ok();
    let (picture, words) = (svg("a table", &tree, walk.as_ref(), sound), text(&tree, walk.as_ref(), sound));
    is_well_formed(&picture);
    assert!(picture.len() < 4_000_000, "{}", picture.len());
    assert_eq!(svg("a table", &tree, walk.as_ref(), sound), picture, "a second drawing is the same");
    let mut cards: Vec<String> = all(&tree).iter().map(|record| record.card.to_string()).collect();
    let large = picture.split("<text class=\"card\"").skip(1).map(|part| part.split(['>', '<']).nth(1).unwrap());
    assert_eq!(large.collect::<Vec<_>>(), cards);
    let rows = words.lines().skip_while(|line| !line.starts_with("card ")).skip(1).take_while(|line| !line.is_empty());
    let card = |line: &str| {
        let cells = line.trim_start_matches(['│', '├', '└', '─', ' ']);
        cells.split_whitespace().find(|cell| !cell.ends_with(':')).unwrap().to_string()
    };
    let mut lines: Vec<String> = rows.map(card).collect();
    lines.sort();
    cards.sort();
    assert_eq!(lines, cards);
    (said(&picture), words)
}

#[test]
fn the_listing_word_for_word() {
    let (_, words) = drawn(&listing(), Some((one(48), 5)));
    assert_eq!(words, include_str!("listing.txt"));
    let (picture, words) = drawn(&listing(), None);
    assert!(words.contains("│  └─ 16     5    6       0\n"), "{words}");
    assert!(!picture.contains("away"));
}

#[test]
fn random_tables_of_both_kinds_with_and_without_a_search() {
    let mut source = Source(3);
    for round in 0..40 {
        let masks = round % 2 == 0;
        let cards = 1 + source.below(50) as u32;
        let table = source.table(masks, cards);
        let search = (source.signature(masks), source.radius());
        drawn(&table, None);
        let (picture, words) = drawn(&table, Some(search));
        let tree = Tree::of(table.bytes()).unwrap();
        let walk = Walk::of(&tree, &search.0, search.1).unwrap();
        let skipped = all(&tree).into_iter().filter(|a| walk.fate(a.slot).unwrap().distance().is_none());
        let closing = match (tree.stored(), skipped.filter_map(|record| walk.least(record.slot)).min()) {
            (0, _) => "there is no card".to_string(),
            (_, None) => "every card was compared".to_string(),
            (_, Some(least)) => format!("from there down nothing is nearer than {least}. The radius is {}", search.1),
        };
        for told in [&picture, &words] {
            assert!(told.contains("Nothing near was missed: ") && told.contains(&closing), "{closing}");
            assert!(!told.contains("WARNING"));
        }
    }
}

/// Card 2 reaches far, since card 3 has stood below it; 5 and 6 stand below it and are younger than 4.
fn with_a_bound() -> Table {
    let mut table = Table::new(8).unwrap();
    for (card, reading, arity) in [(1, 100, 2), (2, 200, 2), (3, 0, 1)] {
        table.insert(card, &one(reading), arity).unwrap();
    }
    table.delete(3, 2).unwrap();
    for (card, reading) in [(4, 10), (5, 210), (6, 215)] {
        table.insert(card, &one(reading), 2).unwrap();
    }
    table
}

#[test]
fn every_reason_is_told_in_full() {
    let (picture, words) = drawn(&with_a_bound(), Some((one(12), 3)));
    let reason = "younger than card 4 (2 away), below card 2 (188 away), so nothing from here down is nearer than 93";
    assert!(words.contains(&format!("198  ✕ not entered: {reason}\n")), "{words}");
    for part in [
        "From card 2 down, what is younger than card 4 is not entered: card 2 is 188 away, and card 4 2.",
        "It is younger than card 4 and stands below card 2, a sibling of that one. Card 2 is 188 away, and card 4 2: \
         186 nearer, more than twice 3.\nWhat is below card 2 and younger than card 4 is no nearer to card 4 than to \
         card 2, so it is half of those 186 away or more: nothing from here down is nearer than 93.",
        "Not compared: it stands below card 5, which was not entered.\nFrom there down nothing is nearer than 93, and \
         the radius is 3.",
    ] {
        assert!(picture.contains(part), "{part}\n{picture}");
    }
    let (picture, _) = drawn(&listing(), Some((one(48), 5)));
    for part in [
        "Card 16 in slot 5, age 6, covering radius 0.\nIts parent is card 12; it has no child.\nStored with readings \
         78, the rest 0.\nCompared, not entered: it is 30 away, and the radius is 5.\nIts older sibling, card 14, is \
         4 away: 26 nearer, more than twice 5.",
        "Its parent is card 11; its children, oldest first: 15.\nStored with readings 20, the rest 0.\nCompared, not \
         entered: it is 28 away, and the radius is 5.\nThat is more than its covering radius, 20, and 5 together.\nAll \
         below it is within 20 of it: nothing from here down is nearer than 8.",
        "Entered and listed: it is 4 away, and the radius is 5.",
    ] {
        assert!(picture.contains(part), "{part}\n{picture}");
    }
}

#[test]
fn an_empty_table_says_so() {
    let table = Table::new(1).unwrap();
    for search in [None, Some((one(48), 5))] {
        let (picture, words) = drawn(&table, search);
        assert!(picture.contains("the table is empty") && words.contains("the table is empty"));
        assert_eq!(words.contains("radius 5"), search.is_some());
    }
}

/// The listing with too small a covering radius: card 12 stands in slot 1 and has 14 below, 28 from it.
fn loose_listing() -> Table {
    let mut bytes = listing().into_bytes();
    bytes[RECORD + 8..RECORD + 12].copy_from_slice(&20u32.to_le_bytes());
    Table::over(bytes)
}

#[test]
fn every_fate_has_its_colour_and_its_sign() {
    let classes = |table: &Table| {
        let tree = Tree::of(table.bytes()).unwrap();
        let walk = Walk::of(&tree, &one(48), 5).unwrap();
        let picture = svg("a table", &tree, Some(&walk), true);
        let class = |slot: usize| {
            let (_, rest) = picture.split_once(&format!("<g id=\"slot{slot}\" class=\"")).unwrap();
            let (class, rest) = rest.split_once('"').unwrap();
            let (inside, _) = rest.split_once("</g>").unwrap();
            let sign = inside.chars().find(|letter| "✓↓✕–!".contains(*letter)).unwrap();
            format!("{class} {sign}")
        };
        (0..6).map(class).collect::<Vec<_>>()
    };
    assert_eq!(classes(&listing()), ["listed ✓", "entered ↓", "cut ✕", "listed ✓", "pale –", "cut ✕"]);
    assert_eq!(classes(&loose_listing()), ["listed ✓", "cut ✕", "cut ✕", "missed !", "pale –", "pale –"]);
}

#[test]
fn a_query_is_told_as_it_is_typed() {
    let masks = Source(5).table(true, 9);
    let sixteen: [u16; 16] = std::array::from_fn(|at| 9 * at as u16 + 1);
    for (table, query, told) in [
        (&listing(), one(0), "readings 0, the rest 0"),
        (&listing(), Signature::readings(sixteen), "readings 1 10 19 28 37 46 55 64 73 82 91 100 109 118 127 136"),
        (&masks, Signature::faults([0; 4]), "mask 00, the rest 0"),
        (&masks, Signature::faults([0x800f, 0, 0, 0]), "mask 0f80, the rest 0"),
        (&masks, Signature::faults([0x0101_0101_0101_0101; 4]), &format!("mask {}", "01".repeat(32))),
    ] {
        let (picture, words) = drawn(table, Some((query, 3)));
        let told = format!("Search for {told}; radius 3.");
        assert!(picture.contains(&told) && words.contains(&told), "{told}");
    }
}

#[test]
fn a_table_that_is_not_sound_is_warned_of_and_what_it_misses_is_named() {
    let loose = loose_listing();
    let (picture, words) = drawn(&loose, Some((one(48), 5)));
    for told in [&picture, &words] {
        assert!(told.contains("WARNING: the table is not sound") && told.contains("check tells how to mend it"));
        assert!(!told.contains("clear"), "whoever clears it has lost the cards");
        assert!(told.contains("MISSED: 1 card within the radius is not listed: 14."));
        assert!(!told.contains("Nothing near was missed") && !told.contains("nothing from here down"));
    }
    assert!(words.contains("! MISSED: below card 12"), "{words}");
    // Nor is it called sound on somebody's word.
    let tree = Tree::of(loose.bytes()).unwrap();
    let walk = Walk::of(&tree, &one(48), 5).unwrap();
    assert_eq!(text(&tree, Some(&walk), true), words);
    let (picture, words) = drawn(&loose, Some((one(48), 2)));
    assert!(picture.contains("another search may miss one") && words.contains("another search may miss one"));
}

#[test]
fn a_full_chain_and_a_full_tree_stay_within_bounds() {
    let deep = chain(MOST_RECORDS as u32);
    let (_, words) = drawn(&deep, Some((one(3000), 10)));
    assert!(words.lines().all(|line| line.chars().count() < 200));
    assert!(words.contains("1023: 4294961023"), "the deepest is told by its level");
    let full = Source(4).table(false, MOST_RECORDS as u32 - 3);
    let (picture, _) = drawn(&full, Some((one(100), 9)));
    assert!(picture.contains("a click on a record leads to it"), "a wide tree has an overview");
    assert!(picture.contains("Go to the root"), "and a link to its root");
}

#[test]
fn a_title_is_shown_as_it_is_and_cut_where_it_is_long() {
    let tree = Tree::of(listing().bytes()).unwrap();
    let picture = svg("<a & \"b\">\u{1}\u{ffff}", &tree, None, true);
    is_well_formed(&picture);
    assert!(picture.contains("&lt;a &amp; &quot;b&quot;&gt;\u{fffd}\u{fffd}</text>"));
    let picture = svg(&"ä".repeat(5000), &tree, None, true);
    assert!(picture.contains(&format!(">{}..</text>", "ä".repeat(90))));
}

#[test]
fn boxes_stand_clear_of_each_other_and_parents_over_their_children() {
    let mut source = Source(2);
    for cards in [1, 2, 7, 30, 60, 200] {
        let tree = Tree::of(source.table(false, cards).bytes()).unwrap();
        let size = |record: &Record| {
            let card = record.card as i32;
            Size { width: 40 + 7 * (card % 13), height: 30 + 5 * (card % 11) }
        };
        let layout = Layout::of(&tree, size);
        let place = |slot: usize| *layout.place(slot).unwrap();
        let places: Vec<Place> = all(&tree).iter().map(|record| place(record.slot)).collect();
        for (at, one) in places.iter().enumerate() {
            assert!(one.left() >= 0 && one.right() <= layout.width && one.bottom() <= layout.height);
            for other in &places[..at] {
                let beside = one.right() < other.left() || other.right() < one.left();
                assert!(beside || one.bottom() < other.top || other.bottom() < one.top);
            }
        }
        for record in all(&tree) {
            let (own, children) = (place(record.slot), record.children.iter().map(|slot| place(*slot)));
            assert_eq!(own.size, size(record));
            assert!(children.clone().is_sorted_by_key(|child| child.middle));
            assert!(children
                .clone()
                .all(|child| own.bottom() < layout.lane(&child) && layout.lane(&child) < child.top));
            if let (Some(first), Some(last)) = (children.clone().next(), children.clone().next_back()) {
                assert!((own.middle - (first.middle + last.middle) / 2).abs() <= 1);
            }
        }
    }
}
