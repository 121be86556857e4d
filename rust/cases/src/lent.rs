//! Lent buffers with memory of the lender's around them.

use std::fmt::Display;

use crate::rng::Rng;

const MARGIN: usize = 8;

/// Words, or bytes, lent to a call out of a larger memory, so that a write outside the buffer is seen.
#[derive(Clone, PartialEq, Eq, Debug)]
pub struct Lent<T = u32> {
    memory: Vec<T>,
    length: usize,
}

impl Lent {
    /// A buffer that begins with `words`: exact, longer, or (never with `whole`) too short.
    pub fn new(rng: &mut Rng, words: &[u32], whole: bool) -> Lent {
        let full = words.len();
        let length = match rng.below(20) {
            0 if !whole => rng.pick(&[0, 1, 2, full / 2, full - 2, full - 1]),
            1 if !whole => rng.below(full),
            2..=4 => full + rng.within(1, 40),
            _ => full,
        };
        let mut memory: Vec<u32> = (0..MARGIN).map(|_| rng.word()).collect();
        memory.extend(words);
        while memory.len() < MARGIN + length.max(full) + MARGIN {
            memory.push(rng.word());
        }
        Lent { memory, length }
    }

    /// A buffer whose words are of no meaning, for a call to write.
    pub fn blank(rng: &mut Rng, full: usize, whole: bool) -> Lent {
        let filler = rng.word();
        let mut words = vec![filler; full];
        for _ in 0..8 {
            let at = rng.below(full);
            words[at] = rng.word();
        }
        Lent::new(rng, &words, whole)
    }

    pub fn words(&self) -> &[u32] {
        self.lent()
    }

    pub fn words_mut(&mut self) -> &mut [u32] {
        self.lent_mut()
    }
}

impl Lent<u8> {
    /// A buffer of so many bytes, of no meaning, for a call to write a text.
    pub fn for_text(rng: &mut Rng, length: usize) -> Lent<u8> {
        let memory = (0..MARGIN + length + MARGIN).map(|_| rng.draw() as u8).collect();
        Lent { memory, length }
    }

    pub fn bytes(&self) -> &[u8] {
        self.lent()
    }

    pub fn bytes_mut(&mut self) -> &mut [u8] {
        self.lent_mut()
    }
}

impl<T: PartialEq + Display> Lent<T> {
    fn lent(&self) -> &[T] {
        &self.memory[MARGIN..MARGIN + self.length]
    }

    fn lent_mut(&mut self) -> &mut [T] {
        &mut self.memory[MARGIN..MARGIN + self.length]
    }

    /// The first place at which two memories differ, counted from the buffer's begin.
    pub fn difference(&self, other: &Lent<T>) -> Option<String> {
        let at = (0..self.memory.len()).find(|&i| self.memory[i] != other.memory[i])?;
        let place = at as isize - MARGIN as isize;
        let (this, that) = (&self.memory[at], &other.memory[at]);
        Some(format!("place {place} of {} is {this} and {that}", self.length))
    }
}
