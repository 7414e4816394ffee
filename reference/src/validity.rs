//! The rules of a valid memory (document 01: "Memory is fit if", and document 02, jobs 6 and 7),
//! cause 1.

use crate::bitmap::Bitmap;
use crate::memory::{Memory, Pending, Slot, SlotState};
use crate::store_list::StoreList;

impl Memory {
    /// Whether the memory keeps its own rules. Any words and numbers may stand in it.
    pub fn is_valid(&self) -> bool {
        Bitmap::can_hold(self.blocks)
            && self.cursor < self.blocks
            && self.bitmaps_fit()
            && self.touches_agree()
            && self.reservations_fit()
            && self.pending_is_valid()
    }

    fn bitmaps_fit(&self) -> bool {
        let slot_fits = |slot: &Slot| match slot.state {
            SlotState::Idle => slot.tam == Bitmap::EMPTY,
            SlotState::Open | SlotState::Precommitted => slot.tam.fits(self.blocks),
        };
        self.sam.fits(self.blocks) && self.com.fits(self.blocks) && self.slots.iter().all(slot_fits)
    }

    /// Where COM equals SAM no active slot has touched the block, elsewhere just one has.
    fn touches_agree(&self) -> bool {
        let mut touched = Bitmap::EMPTY;
        let no_block_twice =
            self.active_slots().all(|slot| join_touches(&mut touched, &slot.tam, &self.sam));
        no_block_twice && differences_are(&touched, &self.com, &self.sam)
    }

    /// All reservations add up to at most the available blocks, and no slot has drawn more than the
    /// blocks it took. The bitmaps fit; blocks are counted only where there is something to compare.
    fn reservations_fit(&self) -> bool {
        let reserved = self.reserved();
        let has_taken = |slot: &Slot| slot.drawn == 0 || slot.drawn <= self.taken_blocks(&slot.tam);
        (reserved == 0 || reserved <= u64::from(self.available_where_bitmaps_fit()))
            && self.slots.iter().all(has_taken)
    }

    fn pending_is_valid(&self) -> bool {
        match self.pending {
            Pending::Nothing => true,
            Pending::Commit { slot, done, due } => done < due && self.commit_is_valid(slot, due),
            Pending::Recovery { done, due } => done < due && self.recovery_is_valid(due),
        }
    }

    fn commit_is_valid(&self, slot: u32, due: u32) -> bool {
        match self.slots.get(slot as usize) {
            Some(Slot { state: SlotState::Precommitted, tam, .. }) => {
                let changed = self.changed_words(tam);
                changed >= 1 && due == StoreList::due_for(changed)
            }
            _ => false,
        }
    }

    fn recovery_is_valid(&self, due: u32) -> bool {
        let all_idle = self.active_slots().next().is_none();
        all_idle && self.com == self.sam && (2..=Bitmap::words_for(self.blocks) + 1).contains(&due)
    }
}

/// Adds the blocks where this TAM differs from SAM, and says whether all of them are new.
fn join_touches(touched: &mut Bitmap, tam: &Bitmap, sam: &Bitmap) -> bool {
    let mut again = 0;
    for (touched, (tam, sam)) in touched.words.iter_mut().zip(tam.words.iter().zip(&sam.words)) {
        let touch = tam ^ sam;
        again |= *touched & touch;
        *touched |= touch;
    }
    again == 0
}

/// Whether `com` and `sam` differ in exactly the blocks of `blocks`.
fn differences_are(blocks: &Bitmap, com: &Bitmap, sam: &Bitmap) -> bool {
    Bitmap::combine(blocks, com, sam, |blocks, com, sam| blocks ^ com ^ sam) == Bitmap::EMPTY
}
