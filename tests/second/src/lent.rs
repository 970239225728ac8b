//! A slice to lend, with guards around it.

/// Elements before and behind each lent slice; a call that writes outside it alters them.
const GUARD: usize = if cfg!(feature = "bare") { 0 } else { 8 };

#[derive(Clone, PartialEq, Eq)]
pub struct Lent<T> {
    all: Vec<T>,
    guard: T,
}

impl<T: Copy> Lent<T> {
    pub fn new(lent: &[T], guard: T) -> Self {
        let wall = [guard; GUARD];
        Lent {
            all: [&wall, lent, &wall].concat(),
            guard,
        }
    }

    pub fn get(&self) -> &[T] {
        &self.all[GUARD..self.all.len() - GUARD]
    }

    pub fn get_mut(&mut self) -> &mut [T] {
        let end = self.all.len() - GUARD;
        &mut self.all[GUARD..end]
    }

    /// Another length; what is kept of the contents stays.
    pub fn resize(&mut self, length: usize, filler: T) {
        let mut lent = self.get().to_vec();
        lent.resize(length, filler);
        *self = Lent::new(&lent, self.guard);
    }

    /// Where two lent slices differ first, counted from the first lent element.
    pub fn difference(&self, other: &Self) -> Option<(i64, T, T)>
    where
        T: PartialEq,
    {
        let pairs = self.all.iter().zip(&other.all).enumerate();
        let mut differing = pairs.filter(|(_, (left, right))| left != right);
        let (place, (left, right)) = differing.next()?;
        Some((place as i64 - GUARD as i64, *left, *right))
    }
}

#[cfg(all(test, not(feature = "bare")))]
mod tests {
    use super::*;

    #[test]
    fn a_changed_guard_is_a_difference() {
        let lent = Lent::new(&[1, 2, 3], 9);
        let guards = (0..GUARD).chain(GUARD + 3..2 * GUARD + 3);
        for place in guards {
            let mut strayed = lent.clone();
            strayed.all[place] = 7;
            let found = (place as i64 - GUARD as i64, 9, 7);
            assert!(lent != strayed);
            assert_eq!(lent.difference(&strayed), Some(found));
            assert_eq!(lent.get(), strayed.get());
        }
    }
}
