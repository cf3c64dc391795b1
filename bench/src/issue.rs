//! Document 01, Issue 1 to 6 (figure 4-4 of the thesis).

use crate::given::Number;
use crate::record::Instruction;
use crate::site::{Access, Address, Kind, Site};

/// 5, then 6: nothing that is outstanding at its site may be in its way (Issue 1).
pub fn admitted(site: &Site, tag: u32, instruction: Instruction, first: Address) -> Result<(), Number> {
    let mut passes = true;
    for earlier in site.outstanding() {
        if earlier.tag == tag {
            return Err(Number::TagOutstanding);
        }
        passes &= can_pass(earlier, instruction, first);
    }
    if passes {
        Ok(())
    } else {
        Err(Number::MayNotIssueYet)
    }
}

/// Issue 2 to 5, for two that meet in one address, of a fence the first. A Loadl is in the way of Storel, Fence rr and Fence rw;
/// a Storel in that of Loadl, Storel and Commit; a Commit in that of Fence wr and Fence ww; a Reconcile in that of Loadl.
fn can_pass(earlier: &Access, later: Instruction, first: Address) -> bool {
    let blocked_at_its_address = || match earlier.kind {
        Kind::Loadl => matches!(later, Instruction::Storel(..) | Instruction::Fence(4 | 5, ..)),
        Kind::Storel(_) => matches!(later, Instruction::Loadl(_) | Instruction::Storel(..) | Instruction::Commit(_)),
        Kind::Commit => matches!(later, Instruction::Fence(6 | 7, ..)),
        Kind::Reconcile => matches!(later, Instruction::Loadl(_)),
    };
    earlier.at != first || !blocked_at_its_address()
}
