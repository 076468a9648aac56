//! Rows to lend: filled with numbers without order, between guards, and looked at afterwards.

use crate::{Entry, Record};
use second::generate::random::Random;
use std::fmt::Debug;

/// What a row is made of.
pub trait Item: Copy + Debug + PartialEq {
    /// What a row of them is called.
    const ROW: &'static str;
    /// How many of them stand before a lent row, and how many behind it.
    const GUARD: usize = 4;

    /// An item of numbers without order. No routine would write it, a byte aside, which may be just
    /// the one that is written: once in 256 times a touched byte is not seen.
    fn without_order(random: &mut Random) -> Self;
}

impl Item for Record {
    const ROW: &'static str = "records";

    fn without_order(random: &mut Random) -> Record {
        let mut number = || random.number() as u32;
        Record {
            ordinal: number(),
            page: number() as i32,
            h: number() as i32,
            v: number() as i32,
            font: number(),
            size: number(),
            place: number(),
            len: number(),
            index: number(),
            gap: number(),
        }
    }
}

impl Item for Entry {
    const ROW: &'static str = "entries";

    fn without_order(random: &mut Random) -> Entry {
        let mut number = || random.number() as u32;
        Entry {
            command: number(),
            letter: number(),
            scheme: number(),
            ordinal: number(),
            place: number(),
            len: number(),
            h: number() as i32,
            v: number() as i32,
        }
    }
}

/// A hit.
impl Item for u32 {
    const ROW: &'static str = "hits";

    fn without_order(random: &mut Random) -> u32 {
        random.number() as u32
    }
}

/// A byte of the rewriter's buffer.
impl Item for u8 {
    const ROW: &'static str = "bytes";
    const GUARD: usize = 64;

    fn without_order(random: &mut Random) -> u8 {
        random.byte()
    }
}

/// A row to be lent, with its guards, and what all of it held before.
pub struct Lent<T> {
    before: Vec<T>,
    /// guard, row, guard
    pub whole: Vec<T>,
}

impl<T: Item> Lent<T> {
    pub fn new(room: usize, random: &mut Random) -> Lent<T> {
        let before: Vec<T> = (0..room + 2 * T::GUARD).map(|_| T::without_order(random)).collect();
        Lent { whole: before.clone(), before }
    }

    /// The row that is lent.
    pub fn row(&mut self) -> &mut [T] {
        let end = self.whole.len() - T::GUARD;
        &mut self.whole[T::GUARD..end]
    }

    /// How many items the row has.
    pub fn room(&self) -> usize {
        self.whole.len() - 2 * T::GUARD
    }

    /// `Ok` where the row begins with `filled` and all behind that, and both guards, are as before;
    /// else the first item that differs.
    pub fn holds(&self, filled: &[T]) -> Result<(), String> {
        let end = self.whole.len() - T::GUARD;
        if filled.len() > end - T::GUARD {
            return Err(format!("{}, {} items are due in a row of {}", T::ROW, filled.len(), end - T::GUARD));
        }
        for (place, (now, before)) in self.whole.iter().zip(&self.before).enumerate() {
            let due = place.checked_sub(T::GUARD).and_then(|number| filled.get(number)).unwrap_or(before);
            if now != due {
                let number = place as i64 - T::GUARD as i64;
                let lies = if (T::GUARD..end).contains(&place) { "in the row" } else { "in a guard" };
                let row = T::ROW;
                return Err(format!("{row}, item {number}, {lies}:\nproved   {now:?}\nexpected {due:?}"));
            }
        }
        Ok(())
    }
}
