//! Slips at the door of the nearest few.

use crate::{write, Slip};
use histories::doors::{Doors, Linked, Nearest};
use plotvuga::Pair;

pub const ALL: [Slip; 13] = [
    Slip::NearestCountNotSet,
    Slip::NearestFoundNotSet,
    Slip::NearestCountShort,
    Slip::NearestPastList,
    Slip::NearestBeforeList,
    Slip::NearestLaterEntries,
    Slip::NearestWritesTable,
    Slip::NearestSwapped,
    Slip::NearestTieByLarger,
    Slip::NearestCut,
    Slip::NearestBeyond,
    Slip::NearestShortByOne,
    Slip::NearestShortByStored,
];

/// The call with this slip; a slip at another door leaves it right.
pub fn slipped(slip: Slip, table: &[u8], lent: Nearest, count: &mut u32, found: &mut u32) -> u32 {
    let Nearest { kind, signature, k, list } = lent;
    let (before, list_before) = ((*count, *found), list.to_vec());
    let k = match slip {
        Slip::NearestCut if k == 64 => 63,
        Slip::NearestBeyond if k == 65 && list.len() > 64 => 64,
        _ => k,
    };
    let refusal = Linked.nearest(table, Nearest { kind, signature, k, list: &mut *list }, count, found);
    let many = *found as usize;
    match slip {
        Slip::NearestCountNotSet if refusal != 0 => *count = before.0,
        Slip::NearestFoundNotSet if refusal != 0 => *found = before.1,
        Slip::NearestCountShort if *count > 3 => *count -= 1,
        Slip::NearestPastList if refusal == 0 => write(list.as_ptr().wrapping_add(list.len()), Pair::default()),
        Slip::NearestBeforeList if refusal == 0 => write(list.as_ptr().wrapping_sub(1), Pair::default()),
        Slip::NearestLaterEntries if refusal == 0 => list[many..].fill(Pair::default()),
        Slip::NearestWritesTable if refusal == 0 => write(table.as_ptr(), !table[0]),
        Slip::NearestSwapped => {
            list[..many].iter_mut().for_each(|pair| (pair.card, pair.distance) = (pair.distance, pair.card));
        }
        Slip::NearestTieByLarger => list[..many].sort_by_key(|pair| (pair.distance, u32::MAX - pair.card)),
        Slip::NearestShortByOne if refusal == 0 && list.len() == k as usize => {
            list.copy_from_slice(&list_before);
            (*count, *found) = (0, 0);
            return 9;
        }
        // Done where the list has room for all that are stored.
        Slip::NearestShortByStored if refusal == 9 && !list.is_empty() => {
            let mut own = [Pair::default(); 64];
            let again = Nearest { kind, signature, k, list: &mut own };
            if Linked.nearest(table, again, count, found) == 0 && *found as usize <= list.len() {
                list[..*found as usize].copy_from_slice(&own[..*found as usize]);
                return 0;
            }
            (*count, *found) = (0, 0);
        }
        _ => {}
    }
    refusal
}
