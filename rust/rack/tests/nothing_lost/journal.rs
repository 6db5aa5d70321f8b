//! What a loss of power would leave, told from the log of calls. A killed program leaves all that it has written; a
//! machine without power only what was synced. So the order of calls has to be: bytes written to a new file, that file
//! synced, named as the table, the folder synced, and then the answer.

use crate::shim::Call;
use std::collections::BTreeSet;
use std::path::Path;

/// What is not sure to be on the disk yet.
#[derive(Default)]
struct Unsure {
    /// Files with bytes, an owner or rights that were not synced.
    files: BTreeSet<String>,
    /// Whether the table has got its name since the folder was synced.
    named: bool,
}

/// Looks through the calls of a run on this table, and says what is out of order.
pub fn in_order(calls: &[Call], table: &Path) -> Result<(), String> {
    let mut unsure = Unsure::default();
    for call in calls {
        unsure.call(call, table).map_err(|fault| format!("{fault}: {call:?}"))?;
    }
    Ok(())
}

impl Unsure {
    fn call(&mut self, call: &Call, table: &Path) -> Result<(), &'static str> {
        if call.is_answer() {
            return if self.named { Err("answered before the folder was synced") } else { Ok(()) };
        }
        if call.is_cut() {
            return Ok(());
        }
        let on_table = Path::new(&call.path) == table;
        match call.name.as_str() {
            "write" | "empty" | "create" | "fchmod" | "fchown" if on_table => {
                return Err("the table itself was touched")
            }
            "unlink" | "rename" if on_table => return Err("the table's name was taken off"),
            "write" | "empty" | "create" | "fchmod" | "fchown" => {
                self.files.insert(call.path.clone());
            }
            "rename" | "link" if call.is_done() => {
                if self.files.contains(&call.path) {
                    return Err("named before it was synced");
                }
                self.named |= call.names(table);
            }
            // Also where that fails: it is said then, and what failed for good is not waited for.
            "fsync" if Some(Path::new(&call.path)) == table.parent() => self.named = false,
            "fsync" if call.is_done() => {
                self.files.remove(&call.path);
            }
            _ => {}
        }
        Ok(())
    }
}
