//! A buffer as it is lent to the library, between guard words.

/// Guard words on each side of a buffer.
const GUARDS: usize = 64;

/// A buffer between its guard words.
pub struct Lent<T> {
    words: Vec<T>,
    guard: T,
}

impl<T: Copy + PartialEq> Lent<T> {
    pub fn of(items: &[T], guard: T) -> Self {
        let mut words = vec![guard; GUARDS];
        words.extend_from_slice(items);
        words.extend([guard; GUARDS]);
        Lent { words, guard }
    }

    pub fn items(&self) -> &[T] {
        &self.words[GUARDS..self.words.len() - GUARDS]
    }

    /// An empty buffer may be lent as the null pointer.
    pub fn at(&mut self, null: bool) -> *mut T {
        if null && self.items().is_empty() {
            return std::ptr::null_mut();
        }
        self.words[GUARDS..].as_mut_ptr()
    }

    pub fn len(&self) -> usize {
        self.items().len()
    }

    /// Whether all guard words are as they were.
    pub fn guarded(&self) -> bool {
        let (end, length) = (self.words.len() - GUARDS, self.words.len());
        [0..GUARDS, end..length].into_iter().flatten().all(|at| self.words[at] == self.guard)
    }
}
