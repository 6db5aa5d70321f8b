//! Placing a record whose card and signature stand in its slot already: insert's walk, which delete uses as well.

use crate::record::{
    child, count, distance, radius, set_child, set_no_child, set_parent, set_radius, set_timestamp, signature, Record,
    NO_SLOT,
};

/// Makes the record in this slot the root of a table with no other.
pub fn place_root(table: &mut [Record], slot: usize, fresh: u32) {
    set_up(&mut table[slot], NO_SLOT, fresh);
}

/// Walks from the root and hangs the record in this slot where the walk ends. Returns the distances worked out.
pub fn place(table: &mut [Record], root: usize, slot: usize, kind: u8, arity: usize, fresh: u32) -> u32 {
    let x = *signature(&table[slot]);
    let mut a = root;
    let mut here = distance(kind, signature(&table[a]), &x);
    let mut compared = 1;
    loop {
        let record = &mut table[a];
        if here > radius(record) {
            set_radius(record, here);
        }
        let children = count(record);
        compared += children as u32;
        let record = &table[a];
        let mut nearest = (u32::MAX, 0);
        for place in 0..children {
            let c = usize::from(child(record, place));
            let far = distance(kind, signature(&table[c]), &x);
            if far < nearest.0 {
                nearest = (far, c);
            }
        }
        if children == 0 || (here < nearest.0 && children < arity) {
            let record = &mut table[a];
            set_child(record, children, slot as u16);
            record[14] += 1;
            set_up(&mut table[slot], a as u16, fresh);
            return compared;
        }
        (here, a) = nearest;
    }
}

fn set_up(record: &mut Record, parent: u16, fresh: u32) {
    set_timestamp(record, fresh);
    set_radius(record, 0);
    set_parent(record, parent);
    set_no_child(record);
}
