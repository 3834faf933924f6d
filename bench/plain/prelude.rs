//! What the sources of the crates take of std: vectors with an allocator that is passed and never fails, which are read
//! without tests; shared values with such an allocator; and a hasher.
use std::ops::{Deref, DerefMut, Index, IndexMut, Range, RangeFrom, RangeFull, RangeTo};

#[derive(Clone, Copy, Debug)]
pub struct Global;

#[derive(Debug)]
pub struct AllocError;

/// A hasher: which one is free.
pub type FoldHasher = std::hash::DefaultHasher;

/// A value that is shared.
#[derive(Debug)]
pub struct Rc<T>(std::rc::Rc<T>);

impl<T> Rc<T> {
    pub fn new(_alloc: Global, item: T) -> Result<Rc<T>, AllocError> {
        Ok(Rc(std::rc::Rc::new(item)))
    }

    pub fn clone(&self) -> Result<Rc<T>, AllocError> {
        Ok(Rc(self.0.clone()))
    }
}

impl<T> Deref for Rc<T> {
    type Target = T;

    fn deref(&self) -> &T {
        &self.0
    }
}

#[derive(Clone, Debug)]
pub struct Vec<T>(std::vec::Vec<T>);

impl<T> Vec<T> {
    pub fn new(_alloc: Global) -> Vec<T> {
        Vec(std::vec::Vec::new())
    }

    pub fn with_capacity(_alloc: Global, count: usize) -> Result<Vec<T>, AllocError> {
        Ok(Vec(std::vec::Vec::with_capacity(count)))
    }

    pub fn push(&mut self, item: T) -> Result<(), AllocError> {
        self.0.push(item);
        Ok(())
    }

    /// As proved code does: it is known that there is room.
    pub fn push_reserved(&mut self, item: T) {
        debug_assert!(self.0.len() < self.0.capacity());
        unsafe {
            let count = self.0.len();
            self.0.as_mut_ptr().add(count).write(item);
            self.0.set_len(count + 1);
        }
    }

    pub fn insert(&mut self, place: usize, item: T) -> Result<(), AllocError> {
        self.0.insert(place, item);
        Ok(())
    }

    pub fn swap_remove(&mut self, place: usize) -> T {
        self.0.swap_remove(place)
    }

    pub fn pop(&mut self) -> Option<T> {
        self.0.pop()
    }

    pub fn reserve(&mut self, more: usize) -> Result<(), AllocError> {
        self.0.reserve(more);
        Ok(())
    }

    pub fn clear(&mut self) {
        self.0.clear();
    }

    pub fn truncate(&mut self, count: usize) {
        self.0.truncate(count);
    }

    pub fn as_slice(&self) -> &[T] {
        &self.0
    }

    pub fn capacity(&self) -> usize {
        self.0.capacity()
    }

    pub fn allocator(&self) -> &Global {
        &Global
    }
}

impl<T: Clone> Vec<T> {
    pub fn filled(_alloc: Global, item: T, count: usize) -> Result<Vec<T>, AllocError> {
        Ok(Vec(std::vec![item; count]))
    }

    pub fn from_slice(_alloc: Global, items: &[T]) -> Result<Vec<T>, AllocError> {
        Ok(Vec(items.to_vec()))
    }

    pub fn extend_from_slice(&mut self, items: &[T]) -> Result<(), AllocError> {
        self.0.extend_from_slice(items);
        Ok(())
    }

    pub fn resize(&mut self, count: usize, item: T) -> Result<(), AllocError> {
        self.0.resize(count, item);
        Ok(())
    }
}

impl<T: PartialEq> Vec<T> {
    pub fn dedup(&mut self) {
        self.0.dedup();
    }
}

impl<T: Ord> Vec<T> {
    pub fn sort(&mut self) -> Result<(), AllocError> {
        self.0.sort();
        Ok(())
    }
}

impl<T> Deref for Vec<T> {
    type Target = [T];

    fn deref(&self) -> &[T] {
        &self.0
    }
}

impl<T> DerefMut for Vec<T> {
    fn deref_mut(&mut self) -> &mut [T] {
        &mut self.0
    }
}

impl<T> Index<usize> for Vec<T> {
    type Output = T;

    fn index(&self, place: usize) -> &T {
        debug_assert!(place < self.0.len());
        unsafe { self.0.get_unchecked(place) }
    }
}

impl<T> IndexMut<usize> for Vec<T> {
    fn index_mut(&mut self, place: usize) -> &mut T {
        debug_assert!(place < self.0.len());
        unsafe { self.0.get_unchecked_mut(place) }
    }
}

macro_rules! index_by {
    ($($range:ty),*) => { $(impl<T> Index<$range> for Vec<T> {
        type Output = [T];

        fn index(&self, range: $range) -> &[T] {
            &self.0[range]
        }
    })* };
}

index_by!(Range<usize>, RangeTo<usize>, RangeFrom<usize>, RangeFull);

impl<T> IntoIterator for Vec<T> {
    type Item = T;
    type IntoIter = std::vec::IntoIter<T>;

    fn into_iter(self) -> Self::IntoIter {
        self.0.into_iter()
    }
}

impl<'a, T> IntoIterator for &'a Vec<T> {
    type Item = &'a T;
    type IntoIter = std::slice::Iter<'a, T>;

    fn into_iter(self) -> Self::IntoIter {
        self.0.iter()
    }
}

impl<'a, T> IntoIterator for &'a mut Vec<T> {
    type Item = &'a mut T;
    type IntoIter = std::slice::IterMut<'a, T>;

    fn into_iter(self) -> Self::IntoIter {
        self.0.iter_mut()
    }
}
