//! The counts of a status, counted block by block, and the line that `status` prints of them.

use reference::{Memory, SlotState, Status};

/// Document 02's four counts, one block at a time. The memory is valid.
pub fn counts_by_blocks(memory: &Memory) -> Status {
    let kind = |block: &u32| (memory.sam.has(*block), memory.com.has(*block));
    let blocks = |wanted| (0..memory.blocks).filter(|block| kind(block) == wanted).count() as u32;
    let allocated = (0..4096).filter(|block| memory.sam.has(*block)).count() as u32;
    let active = (0..8).filter(|slot| memory.slots[*slot].state != SlotState::Idle).count() as u32;
    Status {
        allocated,
        available: blocks((false, false)),
        allocating: blocks((false, true)),
        freeing: blocks((true, false)),
        held: blocks((true, true)),
        active,
    }
}

/// The line behind the answer line of a `status`, with its byte 10.
pub fn printed(status: &Status) -> String {
    let fields = [
        ("allocated", status.allocated),
        ("available", status.available),
        ("allocating", status.allocating),
        ("freeing", status.freeing),
        ("held", status.held),
        ("active", status.active),
    ];
    let fields: Vec<String> =
        fields.iter().map(|(name, count)| format!("{name}={count}")).collect();
    fields.join(" ") + "\n"
}
