//! A list to lend, with numbers before and behind it that nobody may write.

use super::random::Random;

const GUARD: usize = 8;

#[derive(Clone, PartialEq, Eq)]
pub struct Guarded<T>(Vec<T>);

impl<T: Copy + PartialEq> Guarded<T> {
    fn new(length: usize, number: impl FnMut() -> T) -> Guarded<T> {
        Guarded(std::iter::repeat_with(number).take(length + 2 * GUARD).collect())
    }

    pub fn list(&self) -> &[T] {
        &self.0[GUARD..self.0.len() - GUARD]
    }

    pub fn list_mut(&mut self) -> &mut [T] {
        let end = self.0.len() - GUARD;
        &mut self.0[GUARD..end]
    }

    /// The first place, counted from the list's begin, at which the two differ.
    pub fn first_difference(&self, other: &Guarded<T>) -> Option<(isize, T, T)> {
        if self.0 == other.0 {
            return None;
        }
        let place = (0..self.0.len()).find(|&place| self.0[place] != other.0[place])?;
        Some((place as isize - GUARD as isize, self.0[place], other.0[place]))
    }
}

impl Guarded<u32> {
    pub fn cells(random: &mut Random, length: usize) -> Guarded<u32> {
        Guarded::new(length, || random.next() as u32)
    }
}

impl Guarded<u16> {
    pub fn rates(random: &mut Random, length: usize) -> Guarded<u16> {
        Guarded::new(length, || random.next() as u16)
    }
}
