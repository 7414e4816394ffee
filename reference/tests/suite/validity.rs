//! The validity of a memory, set against the rules of documents 01 and 02 read block by block.

use reference::bench::Bench;
use reference::history::{History, Shape};
use reference::{Bitmap, Memory, Pending, Random, Slot, SlotState};

fn bit(bitmap: &Bitmap, block: usize) -> bool {
    bitmap.words[block / 32] >> (block % 32) & 1 == 1
}

/// Document 01: "Memory is fit if", one block at a time, and document 02, jobs 6 and 7: "below m to
/// be fit", and what a fit memory's claims add up to.
fn is_valid_by_blocks(memory: &Memory) -> bool {
    (1..=4096).contains(&memory.blocks)
        && (0..memory.blocks).contains(&memory.cursor)
        && (0..4096).all(|block| block_is_valid(memory, block))
        && reservations_are_valid(memory)
        && pending_is_valid(memory)
}

/// "All claims add up to no more than the grantable blocks, and no seat has used more than it took."
fn reservations_are_valid(memory: &Memory) -> bool {
    let blocks = || 0..memory.blocks as usize;
    let is_available = |block: &usize| !bit(&memory.sam, *block) && !bit(&memory.com, *block);
    let reserved: u128 = memory.slots.iter().map(|slot| u128::from(slot.reservation)).sum();
    let has_taken = |slot: &Slot| {
        let is_taken = |block: &usize| bit(&slot.tam, *block) && !bit(&memory.sam, *block);
        slot.drawn as usize <= blocks().filter(is_taken).count()
    };
    reserved <= blocks().filter(is_available).count() as u128 && memory.slots.iter().all(has_taken)
}

fn block_is_valid(memory: &Memory, block: usize) -> bool {
    let (sam, com) = (bit(&memory.sam, block), bit(&memory.com, block));
    let in_volume = block < memory.blocks as usize;
    let mut touched_by = 0;
    for slot in &memory.slots {
        let tam = bit(&slot.tam, block);
        let idle = slot.state == SlotState::Idle;
        if tam && (idle || !in_volume) {
            return false;
        }
        touched_by += u32::from(!idle && tam != sam);
    }
    (in_volume || (!sam && !com)) && touched_by == u32::from(sam != com)
}

fn pending_is_valid(memory: &Memory) -> bool {
    let words = (memory.blocks - 1) / 32 + 1;
    match memory.pending {
        Pending::Nothing => true,
        Pending::Commit { slot, done, due } => {
            if slot > 7 || memory.slots[slot as usize].state != SlotState::Precommitted {
                return false;
            }
            let changed = changed_by_blocks(memory, &memory.slots[slot as usize].tam);
            changed >= 1 && due == 3 * changed + 2 && done < due
        }
        Pending::Recovery { done, due } => {
            let all_idle = memory.slots.iter().all(|slot| slot.state == SlotState::Idle);
            all_idle && memory.com == memory.sam && due >= 2 && due <= words + 1 && done < due
        }
    }
}

/// The words with a block that the majority of SAM, COM and TAM changes.
fn changed_by_blocks(memory: &Memory, tam: &Bitmap) -> u32 {
    let changes = |block: usize| {
        let (sam, com) = (bit(&memory.sam, block), bit(&memory.com, block));
        let ones = u32::from(sam) + u32::from(com) + u32::from(bit(tam, block));
        (ones >= 2) != sam
    };
    (0..128).filter(|word| (32 * word..32 * word + 32).any(changes)).count() as u32
}

fn damage(random: &mut Random, memory: &mut Memory) {
    let slot = random.below(8) as usize;
    let number = random.choose(&[0, 1, 2, 3, 5, 7, 8, 9, 129, 386, u32::MAX - 1, u32::MAX]);
    match random.below(15) {
        0 => flip(random, &mut memory.sam),
        1 => flip(random, &mut memory.com),
        2 => flip(random, &mut memory.slots[slot].tam),
        3 => memory.blocks = random.choose(&[0, 1, 32, 33, 4095, 4096, 4097, u32::MAX]),
        4 => memory.slots[slot].state = SlotState::Precommitted,
        5 => memory.slots[slot] = Slot::IDLE,
        6 => memory.slots[slot].state = SlotState::Open,
        7 => memory.pending = Pending::Recovery { done: random.below(3), due: number },
        8 => {
            let last = memory.blocks.wrapping_sub(1);
            memory.cursor = random.choose(&[last, last, memory.blocks, number]);
        }
        9 => {
            let slot = random.choose(&[slot as u32, number]);
            memory.pending = Pending::Commit { slot, done: random.below(6), due: number };
        }
        10 | 11 => damage_reservation(random, memory, slot),
        12 => damage_drawn(random, memory, slot),
        _ => match &mut memory.pending {
            Pending::Nothing => {}
            Pending::Commit { done, due, .. } | Pending::Recovery { done, due } => {
                *random.choose_mut(done, due) = number;
            }
        },
    }
}

/// Often just what is left to be reserved, or one more, and now and then sums that would wrap.
fn damage_reservation(random: &mut Random, memory: &mut Memory, slot: usize) {
    memory.slots[slot].reservation = 0;
    let left = memory.available().wrapping_sub(memory.reserved() as u32);
    let wrapped = 0_u32.wrapping_sub(memory.reserved() as u32);
    let any = random.below(64);
    let reservation =
        random.choose(&[left, left, left.wrapping_add(1), wrapped, 1 << 31, u32::MAX, any, any]);
    memory.slots[slot].reservation = reservation;
    if random.one_in(8) {
        memory.slots.iter_mut().for_each(|slot| slot.reservation = reservation);
    }
}

/// Often just what the slot took, or one more.
fn damage_drawn(random: &mut Random, memory: &mut Memory, slot: usize) {
    let is_taken =
        |block: &usize| bit(&memory.slots[slot].tam, *block) && !bit(&memory.sam, *block);
    let taken = (0..4096).filter(is_taken).count() as u32;
    memory.slots[slot].drawn = random.choose(&[taken, taken, taken + 1, 1, u32::MAX]);
}

trait ChooseMut {
    fn choose_mut<'a>(&mut self, one: &'a mut u32, other: &'a mut u32) -> &'a mut u32;
}

impl ChooseMut for Random {
    fn choose_mut<'a>(&mut self, one: &'a mut u32, other: &'a mut u32) -> &'a mut u32 {
        if self.one_in(2) {
            one
        } else {
            other
        }
    }
}

fn flip(random: &mut Random, bitmap: &mut Bitmap) {
    let word = random.choose(&[0, 0, 1, 127]);
    bitmap.words[word] ^= 1 << random.choose(&[0, 1, 2, 30, 31]);
}

#[test]
fn validity_is_document_01s_read_block_by_block() {
    let mut random = Random::new(1);
    let mut counts = [0; 2];
    for seed in 0..60 {
        let blocks = random.choose(&[1, 4, 31, 33, 64, 100, 4095, 4096]);
        let shape = Shape::plain(blocks);
        let mut bench = Bench::new();
        for line in History::new(seed, shape).unwrap().take(120) {
            let _ = bench.run(&line);
            let mut memory = bench.memory.clone();
            for _ in 0..random.below(3) {
                damage(&mut random, &mut memory);
            }
            let valid = is_valid_by_blocks(&memory);
            assert_eq!(memory.is_valid(), valid, "{memory:?}");
            counts[usize::from(valid)] += 1;
        }
    }
    assert!(counts[0] > 2000 && counts[1] > 2000, "{counts:?}");
}

/// A memory with slot 1 precommitted, which has taken blocks in two words.
fn precommitted() -> Memory {
    let mut memory = Memory::opened(40, Bitmap::EMPTY, Pending::Nothing);
    memory.com.words[..2].copy_from_slice(&[4, 8]);
    memory.slots[1] = Slot::unreserved(SlotState::Precommitted, memory.com);
    memory
}

fn assert_pending(memory: &Memory, pending: Pending, valid: bool) {
    let memory = Memory { pending, ..memory.clone() };
    assert_eq!(memory.is_valid(), valid, "{pending:?}");
}

#[test]
fn a_pending_commit_has_its_slot_and_its_numbers() {
    let memory = precommitted();
    for (slot, done, due, valid) in [
        (1, 0, 8, true),
        (1, 7, 8, true),
        (1, 8, 8, false),
        (1, 0, 5, false),
        (1, 0, 9, false),
        (0, 0, 8, false),
        (8, 0, 8, false),
        (u32::MAX, 0, 8, false),
        (1, u32::MAX, u32::MAX, false),
    ] {
        assert_pending(&memory, Pending::Commit { slot, done, due }, valid);
    }
    let mut open = memory.clone();
    open.slots[1].state = SlotState::Open;
    assert_pending(&open, Pending::Nothing, true);
    assert_pending(&open, Pending::Commit { slot: 1, done: 0, due: 8 }, false);
}

#[test]
fn a_pending_commit_changes_a_word() {
    let mut memory = Memory::opened(40, Bitmap::EMPTY, Pending::Nothing);
    memory.slots[1].state = SlotState::Precommitted;
    assert_pending(&memory, Pending::Nothing, true);
    assert_pending(&memory, Pending::Commit { slot: 1, done: 0, due: 2 }, false);
}

#[test]
fn a_pending_recovery_has_idle_slots_and_its_numbers() {
    let memory = Memory::opened(40, Bitmap::EMPTY, Pending::Nothing);
    for (done, due, valid) in [
        (0, 0, false),
        (0, 1, false),
        (0, 2, true),
        (1, 2, true),
        (2, 2, false),
        (2, 3, true),
        (0, 4, false),
        (0, u32::MAX, false),
    ] {
        assert_pending(&memory, Pending::Recovery { done, due }, valid);
    }
    let mut active = memory.clone();
    active.slots[3].state = SlotState::Open;
    assert_pending(&active, Pending::Nothing, true);
    assert_pending(&active, Pending::Recovery { done: 0, due: 2 }, false);
}

#[test]
fn a_cursor_is_below_m_while_work_is_pending_too() {
    let commit = Pending::Commit { slot: 1, done: 3, due: 8 };
    let precommitted = precommitted();
    let opened = Memory::opened(40, Bitmap::EMPTY, Pending::Nothing);
    let recovery = Pending::Recovery { done: 1, due: 3 };
    for (memory, pending) in [
        (&opened, Pending::Nothing),
        (&precommitted, Pending::Nothing),
        (&precommitted, commit),
        (&opened, recovery),
    ] {
        for (cursor, valid) in
            [(0, true), (39, true), (40, false), (41, false), (4096, false), (u32::MAX, false)]
        {
            assert_pending(&Memory { cursor, ..memory.clone() }, pending, valid);
        }
    }
    let full = Memory::opened(4096, Bitmap::EMPTY, Pending::Nothing);
    assert!(Memory { cursor: 4095, ..full.clone() }.is_valid());
    assert!(!Memory { cursor: 4096, ..full }.is_valid());
}

#[test]
fn the_memory_of_zeros_is_not_valid() {
    assert!(!Memory::ZEROS.is_valid());
    assert_eq!(Memory::ZEROS.cursor, 0);
    assert!(Memory { blocks: 1, ..Memory::ZEROS }.is_valid());
}

#[test]
fn reservations_add_up_to_at_most_the_available_blocks() {
    // 38 blocks are available.
    for (reservations, valid) in [
        ([38, 0, 0, 0, 0, 0, 0, 0], true),
        ([39, 0, 0, 0, 0, 0, 0, 0], false),
        ([0, 0, 0, 0, 0, 0, 0, 39], false),
        ([20, 10, 0, 0, 0, 0, 0, 8], true),
        ([20, 10, 0, 0, 0, 0, 0, 9], false),
        ([5, 5, 5, 5, 5, 5, 5, 3], true),
        ([5, 5, 5, 5, 5, 5, 5, 4], false),
        ([1 << 31, 1 << 31, 0, 0, 0, 0, 0, 0], false),
        ([u32::MAX, 1, 0, 0, 0, 0, 0, 0], false),
        ([u32::MAX, 39, 0, 0, 0, 0, 0, 0], false),
        ([u32::MAX; 8], false),
        ([1 << 29; 8], false),
    ] {
        let mut memory = precommitted();
        for (slot, reservation) in memory.slots.iter_mut().zip(reservations) {
            slot.reservation = reservation;
        }
        assert_eq!(memory.is_valid(), valid, "{reservations:?}");
        let pending = Pending::Commit { slot: 1, done: 3, due: 8 };
        assert_pending(&memory, pending, valid);
    }
}

#[test]
fn reservations_add_up_to_at_most_the_available_blocks_in_a_recovery_too() {
    let pending = Pending::Recovery { done: 0, due: 2 };
    let mut memory = Memory::opened(40, Bitmap::EMPTY, pending);
    memory.slots[6].reservation = 40;
    assert!(memory.is_valid());
    memory.slots[0].reservation = 1;
    assert!(!memory.is_valid());
}

#[test]
fn no_slot_has_drawn_more_than_it_took() {
    // Slot 1 has taken two blocks. Slot 2 has freed one, which isn't taken.
    let mut memory = precommitted();
    memory.sam.words[0] |= 1 << 9;
    memory.slots[1].tam.words[0] |= 1 << 9;
    memory.slots[2].state = SlotState::Open;
    assert!(memory.is_valid());
    for (slot, drawn, valid) in [
        (1, 1, true),
        (1, 2, true),
        (1, 3, false),
        (1, u32::MAX, false),
        (2, 0, true),
        (2, 1, false),
        (0, 1, false),
        (7, u32::MAX, false),
    ] {
        let mut memory = memory.clone();
        memory.slots[slot].drawn = drawn;
        assert_eq!(memory.is_valid(), valid, "{slot} {drawn}");
        let pending = Pending::Commit { slot: 1, done: 0, due: 8 };
        assert_pending(&memory, pending, valid);
    }
    let pending = Pending::Recovery { done: 0, due: 2 };
    let mut memory = Memory::opened(40, Bitmap::EMPTY, pending);
    assert!(memory.is_valid());
    memory.slots[3].drawn = 1;
    assert!(!memory.is_valid());
}
