//! The errors, one for each cause of refusal in document 01's table, which document 02's causes join.

/// A cause of refusal. Its code is the documents' number.
#[derive(Clone, Copy, PartialEq, Eq, PartialOrd, Ord, Debug)]
#[repr(u32)]
pub enum Error {
    /// The memory isn't valid.
    InvalidMemory = 1,
    /// The disk isn't 386 words long.
    DiskLength = 2,
    /// Word 0 of the disk isn't 1 to 4,096.
    DiskBlockCount = 3,
    /// The disk's bitmap has a bit from m on.
    DiskBitmap = 4,
    /// The disk's log is too long, out of order or has a number or bit out of range.
    DiskLog = 5,
    /// The disk isn't as this memory and its stores done leave it.
    DiskMismatch = 6,
    /// The number of blocks asked for isn't 1 to 4,096.
    BlockCount = 7,
    /// There is pending work.
    WorkPending = 8,
    /// There is no pending work.
    NothingPending = 9,
    /// The slot number is above 7.
    SlotNumber = 10,
    /// The slot isn't idle.
    SlotNotIdle = 11,
    /// The slot is idle.
    SlotIdle = 12,
    /// The slot is precommitted.
    SlotPrecommitted = 13,
    /// The slot isn't precommitted.
    SlotNotPrecommitted = 14,
    /// The number of blocks to allocate isn't 1 to 64, that of a commit cost is above 64.
    Count = 15,
    /// The list is shorter than the count.
    ListLength = 16,
    /// Fewer blocks are available than the count.
    TooFewAvailable = 17,
    /// The block number is m or above.
    BlockNumber = 18,
    /// The block isn't allocated in SAM.
    BlockNotAllocated = 19,
    /// The block is allocated in SAM, and a transaction has already freed it.
    BlockAlreadyFreed = 20,
    /// The bench line isn't in form.
    MalformedLine = 21,
    /// There aren't as many adjoining available blocks as the count.
    NoExtent = 22,
    /// All reservations would add up to more than the available blocks.
    OverReserved = 23,
    /// The grant would leave fewer available blocks than the other slots' reservations add up to.
    ReservedForOthers = 24,
}

impl Error {
    pub fn code(self) -> u32 {
        self as u32
    }
}

/// Refuses with this error unless the rule holds.
pub fn require(rule: bool, error: Error) -> Result<(), Error> {
    if rule {
        Ok(())
    } else {
        Err(error)
    }
}
