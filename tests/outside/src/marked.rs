//! Lent memory: each list lies inside a larger allocation whose guards before and after it hold one mark, and
//! what is lent to be written holds another. After a call the whole allocation is compared with what it held
//! before, but for the entries that the reference says were written.

use std::fmt::Debug;

const GUARD: usize = 48;

/// An entry of a lent list. Marks differ from place to place, so that memory moved about shows too.
pub trait Entry: Copy + PartialEq + Debug {
    fn mark(place: usize, salt: u32) -> Self;
}

fn mark_bits(place: usize, salt: u32) -> u32 {
    (place as u32).wrapping_mul(0x9E37_79B1).rotate_left(7) ^ salt
}

impl Entry for u8 {
    fn mark(place: usize, salt: u32) -> u8 {
        mark_bits(place, salt) as u8
    }
}

impl Entry for u16 {
    fn mark(place: usize, salt: u32) -> u16 {
        mark_bits(place, salt) as u16
    }
}

impl Entry for u32 {
    fn mark(place: usize, salt: u32) -> u32 {
        mark_bits(place, salt)
    }
}

const GUARD_SALT: u32 = 0x5C5C_3A3A;
const INSIDE_SALT: u32 = 0xA3C5_A5C3;

pub struct Lent<T> {
    whole: Vec<T>,
    before: Vec<T>,
    start: usize,
    length: usize,
}

impl<T: Entry> Lent<T> {
    /// A list of `length` marks, to be written.
    pub fn blank(length: usize) -> Lent<T> {
        Lent::around(length, 0, |place| T::mark(place, INSIDE_SALT))
    }

    /// A list to be read, `shift` entries further on than usual: files may start anywhere.
    pub fn holding(entries: &[T], shift: usize) -> Lent<T> {
        Lent::around(entries.len(), shift, |place| entries[place])
    }

    /// A list to be read with `behind` right after it, which belongs to the guard.
    pub fn followed(entries: &[T], behind: &[T], shift: usize) -> Lent<T> {
        let whole = entries.len() + behind.len();
        let inside = |place: usize| *entries.get(place).unwrap_or_else(|| &behind[place - entries.len()]);
        Lent { length: entries.len(), ..Lent::around(whole, shift, inside) }
    }

    fn around(length: usize, shift: usize, inside: impl Fn(usize) -> T) -> Lent<T> {
        let start = GUARD + shift;
        let mut whole = Vec::with_capacity(start + length + GUARD);
        whole.extend((0..start).map(|place| T::mark(place, GUARD_SALT)));
        whole.extend((0..length).map(inside));
        whole.extend((0..GUARD).map(|place| T::mark(place, !GUARD_SALT)));
        Lent { before: whole.clone(), whole, start, length }
    }

    pub fn pointer(&self) -> *const T {
        self.whole[self.start..].as_ptr()
    }

    pub fn pointer_mut(&mut self) -> *mut T {
        self.whole[self.start..].as_mut_ptr()
    }

    pub fn length(&self) -> usize {
        self.length
    }

    /// The list's first entries as they are now, at most `count`.
    pub fn first(&self, count: usize) -> &[T] {
        &self.whole[self.start..][..count.min(self.length)]
    }

    /// The first entry of the whole allocation that is not what it should be, if `written` are the list's
    /// first entries now and all else is as it was. Places are counted from the list's first entry.
    pub fn unlike(&self, written: &[T]) -> Option<String> {
        let end = self.start + written.len();
        let as_it_should = self.whole[..self.start] == self.before[..self.start]
            && self.whole[self.start..end] == *written
            && self.whole[end..] == self.before[end..];
        if as_it_should {
            return None;
        }
        let place = (0..self.whole.len()).find(|&place| self.whole[place] != self.expected(place, written))?;
        Some(format!(
            "entry {} holds {:?}, expected {:?}",
            place as i64 - self.start as i64,
            self.whole[place],
            self.expected(place, written)
        ))
    }

    fn expected(&self, place: usize, written: &[T]) -> T {
        match place.checked_sub(self.start).and_then(|inside| written.get(inside)) {
            Some(&entry) => entry,
            None => self.before[place],
        }
    }
}
