//! Slices to lend to a desk, with guards before and behind, for writes that go astray. They start anywhere that words or bytes can: a desk
//! that took a slice to be aligned more than it must be would fail on some of them.
use generate::Dice;
use std::cell::RefCell;
use std::mem::size_of;

/// Words or bytes that a place can be filled with.
pub trait Filler: Copy + PartialEq {
    /// What stands in a place that nobody has written to. Neighbours differ, so that what was moved or written again elsewhere is seen too.
    /// Places before a slice come round from the largest number.
    fn filler(place: usize) -> Self;
}

impl Filler for u32 {
    fn filler(place: usize) -> u32 {
        (place as u32).wrapping_add(1).wrapping_mul(0x9e37_79b1)
    }
}

impl Filler for u8 {
    fn filler(place: usize) -> u8 {
        (u32::filler(place) >> 24) as u8
    }
}

/// How many words or bytes stand guard behind, and at least before.
const GUARD: usize = 16;
/// Bytes that the widest instruction in the archive takes at once; some of those fault where they meet no multiple of it.
const WIDEST: usize = 16;
/// As many places can words start at, from one multiple of it to the next.
pub const WORD_OFFSETS: usize = WIDEST / size_of::<u32>();

thread_local! {
    /// The dice that say where slices start. They are none of those that requests are thrown with, so that they change no request.
    static STARTS: RefCell<Dice> = RefCell::new(Dice::new(0));
}

/// From now on, slices start where this number alone says: what is replayed then starts where it did before.
pub fn start_from(number: u64) {
    STARTS.with(|dice| *dice.borrow_mut() = Dice::new(number));
}

/// How many words or bytes the next guard before a slice has: enough, and a few more to come to any place between multiples of `WIDEST`.
fn next_guard<T>() -> usize {
    let more = (WIDEST / size_of::<T>()) as u32;
    GUARD + STARTS.with(|dice| dice.borrow_mut().below(more)) as usize
}

/// A slice with guards on both sides; all of it stands in one block, and places are counted from the slice's start.
#[derive(Clone)]
pub struct Guarded<T> {
    block: Vec<T>,
    /// Where the slice starts.
    start: usize,
    length: usize,
}

impl<T: Filler> Guarded<T> {
    /// A slice that holds these words.
    pub fn holding(words: &[T]) -> Guarded<T> {
        let mut guarded = Guarded { block: Vec::new(), start: 0, length: 0 };
        guarded.hold(words);
        guarded
    }

    /// A room of a length that nobody has written to.
    pub fn room(length: usize) -> Guarded<T> {
        let mut guarded = Guarded { block: Vec::new(), start: 0, length: 0 };
        guarded.empty(length);
        guarded
    }

    /// From now on, a slice that holds these words, and fresh guards.
    pub fn hold(&mut self, words: &[T]) {
        self.empty(words.len());
        self.lent().copy_from_slice(words);
    }

    /// From now on, a room of a length that nobody has written to, and fresh guards.
    pub fn empty(&mut self, length: usize) {
        self.start = next_guard::<T>();
        self.length = length;
        self.block.clear();
        self.block.extend((0..self.start + length + GUARD).map(|at| filler::<T>(self.start, at)));
    }

    /// The slice as it is lent.
    pub fn lent(&mut self) -> &mut [T] {
        &mut self.block[self.start..self.start + self.length]
    }

    /// The slice as it stands.
    pub fn words(&self) -> &[T] {
        &self.block[self.start..self.start + self.length]
    }

    /// How many words or bytes behind the multiple of `WIDEST` before it the slice starts.
    pub fn offset(&self) -> usize {
        self.words().as_ptr() as usize % WIDEST / size_of::<T>()
    }

    /// Do these words stand in it, and the guards around them?
    pub fn holds(&self, words: &[T]) -> bool {
        self.words() == words && self.guards_stand()
    }

    /// Does nothing but filling stand from a place on, up to the last guard, and before the slice?
    pub fn untouched_from(&self, place: usize) -> bool {
        self.filled(0, self.start) && self.filled(self.start + place, self.block.len())
    }

    /// Do the guards on both sides stand as they were put?
    pub fn guards_stand(&self) -> bool {
        self.untouched_from(self.length)
    }

    /// Is the block in this range as it was filled?
    fn filled(&self, from: usize, to: usize) -> bool {
        (from..to).all(|at| self.block[at] == filler(self.start, at))
    }
}

/// What fills a block of which the slice starts there, at one of its words: the same in every room, wherever that starts in its block.
fn filler<T: Filler>(start: usize, at: usize) -> T {
    T::filler(at.wrapping_sub(start))
}

#[cfg(test)]
mod tests {
    use super::*;
    use std::collections::BTreeSet;

    /// Changes the word at one place of a block that holds three of them: it is seen unless it is one of the three.
    fn change_slice(place: usize) {
        let mut slice = Guarded::<u32>::holding(&[7, 8, 9]);
        let place = place % slice.block.len();
        slice.block[place] ^= 1;
        assert_eq!(slice.guards_stand(), (slice.start..slice.start + 3).contains(&place));
        assert!(!slice.holds(&[7, 8, 9]));
    }

    /// Changes the byte at one place of a block with a room of three: it is seen unless it is before where filling must stand.
    fn change_room(place: usize) {
        let mut room = Guarded::<u8>::room(3);
        let place = place % room.block.len();
        room.block[place] ^= 1;
        assert!(!room.untouched_from(0));
        assert_eq!(room.untouched_from(1), place == room.start);
    }

    /// Every single word that is changed around a slice, or behind what was written to a room, is seen, wherever they start.
    #[test]
    fn a_stray_write_is_seen() {
        (0..10_000).for_each(change_slice);
        (0..10_000).for_each(change_room);
    }

    /// Where slices in one block start, from the multiple of `WIDEST` before, in bytes.
    fn starts<T: Filler>() -> BTreeSet<usize> {
        let mut slice = Guarded::<T>::room(3);
        let mut start = || {
            slice.empty(3);
            let start = slice.lent().as_ptr() as usize % WIDEST;
            assert_eq!(slice.offset() * size_of::<T>(), start);
            start
        };
        (0..1_000).map(|_| start()).collect()
    }

    /// Words start at all four places between multiples of sixteen bytes, bytes at all sixteen.
    #[test]
    fn slices_start_everywhere() {
        assert_eq!(starts::<u32>(), BTreeSet::from([0, 4, 8, 12]));
        assert_eq!(starts::<u8>(), (0..WIDEST).collect());
    }

    /// Slices start where they did before once the number is the same.
    #[test]
    fn starts_come_again() {
        let some = |number| {
            start_from(number);
            [(); 20].map(|_| Guarded::<u8>::room(0).start)
        };
        assert_eq!(some(3), some(3));
        assert_ne!(some(3), some(4));
    }

    /// What nobody writes to stays, and is the same in all rooms.
    #[test]
    fn a_fresh_slice_is_untouched() {
        (0..100).for_each(|_| assert_eq!(Guarded::<u32>::room(9).words(), Guarded::<u32>::room(9).words()));
        assert!(Guarded::<u32>::holding(&[7, 8, 9]).holds(&[7, 8, 9]));
        assert!(Guarded::<u8>::room(200).untouched_from(0));
    }
}
