//! A buffer as a caller lends it: guard words on both sides, foreign bits inside.

use crate::ffi::Answer;
use crate::random::Random;
use crate::values::nan;
use std::hint::black_box;

/// Guard words on each side, of 64 bits whatever the entries have.
const GUARD: usize = 4;

/// What a buffer's entries are, and how many bytes each has.
#[derive(Clone, Copy, Debug, PartialEq)]
pub enum Entry {
    Byte = 1,
    Word = 4,
    Number = 8,
}

pub struct Lent {
    memory: Vec<u64>,
    /// The memory as it was lent.
    lent: Vec<u64>,
    entry: Entry,
    len: usize,
}

/// An entry that is not as it must be; `at` counts from the first one, so guards are below 0 or past
/// the end.
#[derive(Debug, PartialEq)]
pub struct Wrong {
    pub at: isize,
    pub expected: u64,
    pub got: u64,
}

impl Lent {
    /// `len` entries of foreign bits.
    pub fn foreign(entry: Entry, len: usize, random: &mut Random) -> Lent {
        let words = (len * entry as usize).div_ceil(8) + 2 * GUARD;
        let memory: Vec<u64> = (0..words).map(|_| foreign(random)).collect();
        let lent = memory.clone();
        Lent {
            memory,
            lent,
            entry,
            len,
        }
    }

    /// Numbers that a call reads.
    pub fn holding(numbers: &[f64], random: &mut Random) -> Lent {
        let mut buffer = Lent::foreign(Entry::Number, numbers.len(), random);
        buffer.numbers().copy_from_slice(numbers);
        buffer.lent.clone_from(&buffer.memory);
        buffer
    }

    /// Words that a call reads.
    pub fn holding_words(words: &[u32], random: &mut Random) -> Lent {
        let mut buffer = Lent::foreign(Entry::Word, words.len(), random);
        buffer.words().copy_from_slice(words);
        buffer.lent.clone_from(&buffer.memory);
        buffer
    }

    /// Bytes that a call reads.
    pub fn holding_bytes(bytes: &[u8], random: &mut Random) -> Lent {
        let mut buffer = Lent::foreign(Entry::Byte, bytes.len(), random);
        buffer.bytes().copy_from_slice(bytes);
        buffer.lent.clone_from(&buffer.memory);
        buffer
    }

    /// For what a call answers.
    pub fn for_answer(random: &mut Random) -> Lent {
        Lent::foreign(Entry::Number, 4, random)
    }

    pub fn numbers(&mut self) -> &mut [f64] {
        self.entries(Entry::Number)
    }

    pub fn words(&mut self) -> &mut [u32] {
        self.entries(Entry::Word)
    }

    pub fn bytes(&mut self) -> &mut [u8] {
        self.entries(Entry::Byte)
    }

    /// The first `N` entries, for a call that takes so many.
    pub fn array<const N: usize>(&mut self) -> &mut [f64; N] {
        self.numbers().first_chunk_mut().expect("long enough")
    }

    /// The first entries, for a call's answer.
    pub fn answer(&mut self) -> &mut Answer {
        let entries = self.entries(Entry::Number);
        entries.first_chunk_mut().expect("long enough")
    }

    /// The entries, of which any bits are a `T`.
    fn entries<T: Plain>(&mut self, entry: Entry) -> &mut [T] {
        assert!(entry == self.entry && size_of::<T>() == entry as usize);
        let len = self.len;
        let inside = &mut self.memory[GUARD..];
        // SAFETY: any bits are a T, whose alignment is no larger than a word's.
        unsafe { &mut inside.align_to_mut().1[..len] }
    }

    /// The first entry that is not as it must be: `written` in the first ones, as it was lent in all
    /// others and in the guards.
    pub fn wrong(&self, written: &[u64]) -> Option<Wrong> {
        // A call borrows the entries alone, so the compiler may take the guards for unchanged;
        // black_box has it look.
        let memory = black_box(&self.memory);
        let guard = self.guard();
        let expected = |i: usize| {
            let entry = i.checked_sub(guard).and_then(|entry| written.get(entry));
            entry.map_or_else(|| self.entry_of(&self.lent, i), |&entry| entry)
        };
        let got = |i: usize| self.entry_of(memory, i);
        let all = memory.len() * 8 / self.entry as usize;
        let i = (0..all).find(|&i| got(i) != expected(i))?;
        Some(Wrong {
            at: i as isize - guard as isize,
            expected: expected(i),
            got: got(i),
        })
    }

    /// The entry `i` of a memory, its guards counted.
    fn entry_of(&self, memory: &[u64], i: usize) -> u64 {
        // SAFETY: any bits are a byte or a word, neither of which is aligned to more.
        match self.entry {
            Entry::Byte => unsafe { memory.align_to::<u8>() }.1[i].into(),
            Entry::Word => unsafe { memory.align_to::<u32>() }.1[i].into(),
            Entry::Number => memory[i],
        }
    }

    /// Entries in the guard before the first.
    fn guard(&self) -> usize {
        GUARD * 8 / self.entry as usize
    }

    /// Every place that an entry or a guard has, as `Wrong` counts them.
    pub fn places(&self) -> std::ops::Range<isize> {
        let all = self.memory.len() * 8 / self.entry as usize;
        let guard = self.guard() as isize;
        -guard..all as isize - guard
    }

    pub fn bits(&self) -> u32 {
        8 * self.entry as u32
    }

    /// Writes the first entries, as a right call does.
    pub fn write(&mut self, written: &[u64]) {
        match self.entry {
            Entry::Byte => copy(self.bytes(), written, |entry| entry as u8),
            Entry::Word => copy(self.words(), written, |entry| entry as u32),
            Entry::Number => copy(self.numbers(), written, f64::from_bits),
        }
    }

    /// Flips a bit of the entry `at`, as a wrong call might.
    pub fn flip(&mut self, at: isize, bit: u32) {
        let entry = (at + self.guard() as isize) as usize;
        let bit = entry * self.bits() as usize + bit as usize;
        // SAFETY: any bits are bytes. The lowest byte of an entry is its first one.
        let bytes = unsafe { self.memory.align_to_mut::<u8>() }.1;
        bytes[bit / 8] ^= 1 << (bit % 8);
    }
}

/// Types of which any bits are a value.
trait Plain {}
impl Plain for u8 {}
impl Plain for u32 {}
impl Plain for u64 {}
impl Plain for f64 {}

fn copy<T>(to: &mut [T], from: &[u64], entry: impl Fn(u64) -> T) {
    for (to, &from) in to.iter_mut().zip(from) {
        *to = entry(from);
    }
}

/// Any bits, a NaN's in half of the words: a copy must keep them, and arithmetic would not.
pub fn foreign(random: &mut Random) -> u64 {
    if random.one_in(2) {
        nan(random).to_bits()
    } else {
        random.bits()
    }
}
