//! A hash table of the places of groups.

const FIRST_SLOTS: usize = 256;
const UPPER_HALF: u64 = !0 << 32;

/// At most half of the slots are taken. A slot holds the upper half of a hash, and below it the place of a group
/// and one; a free slot is 0.
pub struct Slots {
    slots: Vec<u64>,
    shift: u32,
}

impl Slots {
    pub fn new() -> Slots {
        Slots {
            slots: vec![0; FIRST_SLOTS],
            shift: 64 - FIRST_SLOTS.ilog2(),
        }
    }

    /// The place in the first slot of a hash; that of a free one is beyond all places.
    #[inline(always)]
    pub fn first_place(&self, hash: u64) -> usize {
        place_in(self.slots[self.first_slot(hash)])
    }

    /// The place in the first slot of a hash, or one beyond all places where the slot is not of such a hash.
    #[inline(always)]
    pub fn first_likely_place(&self, hash: u64) -> usize {
        let slot = self.slots[self.first_slot(hash)];
        if may_be(slot, hash) {
            place_in(slot)
        } else {
            usize::MAX
        }
    }

    /// The place of the group with a hash that is the one sought, or else the free slot where it belongs.
    #[inline(always)]
    pub fn find(&self, hash: u64, is_sought: impl Fn(usize) -> bool) -> Result<usize, usize> {
        let mut at = self.first_slot(hash);
        loop {
            let slot = self.slots[at];
            if slot == 0 {
                return Err(at);
            }
            let place = place_in(slot);
            if may_be(slot, hash) && is_sought(place) {
                return Ok(place);
            }
            at = self.slot_behind(at);
        }
    }

    /// Puts the place of the last group into a free slot.
    pub fn insert(&mut self, at: usize, hash: u64, place: usize) {
        self.slots[at] = hash & UPPER_HALF | (place as u64 + 1);
        if 2 * (place + 1) > self.slots.len() {
            self.grow();
        }
    }

    fn grow(&mut self) {
        let slots = vec![0; 2 * self.slots.len()];
        self.shift -= 1;
        for slot in std::mem::replace(&mut self.slots, slots) {
            if slot != 0 {
                let mut at = self.first_slot(slot);
                while self.slots[at] != 0 {
                    at = self.slot_behind(at);
                }
                self.slots[at] = slot;
            }
        }
    }

    /// The slot in which the search for a hash begins, of which the upper half is enough.
    #[inline(always)]
    fn first_slot(&self, hash: u64) -> usize {
        (hash >> self.shift) as usize
    }

    #[inline(always)]
    fn slot_behind(&self, at: usize) -> usize {
        (at + 1) & (self.slots.len() - 1)
    }
}

#[inline(always)]
fn place_in(slot: u64) -> usize {
    (slot as u32 as usize).wrapping_sub(1)
}

#[inline(always)]
fn may_be(slot: u64, hash: u64) -> bool {
    (slot ^ hash) & UPPER_HALF == 0
}

/// A number below `count`, by the half of a hash that has no part in where a slot is.
#[inline(always)]
pub fn share_of_hash(hash: u64, count: usize) -> usize {
    ((hash & !UPPER_HALF) * count as u64 >> 32) as usize
}
