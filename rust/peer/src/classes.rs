//! Classes of numbers (union-find). The lower number leads a merged class, and `find` halves
//! the paths that it goes up.

/// Classes of the numbers below N, a power of two.
pub struct Classes<const N: usize> {
    parent: [u16; N],
}

impl<const N: usize> Classes<N> {
    pub fn new() -> Self {
        Classes {
            parent: std::array::from_fn(|number| number as u16),
        }
    }

    /// The least number of the class.
    #[inline(always)]
    pub fn find(&mut self, mut number: u16) -> u16 {
        loop {
            let parent = self.parent_of(number);
            if parent == number {
                return number;
            }
            let above = self.parent_of(parent);
            if above == parent {
                return parent;
            }
            self.parent[usize::from(number) % N] = above;
            number = above;
        }
    }

    #[inline(always)]
    fn parent_of(&self, number: u16) -> u16 {
        self.parent[usize::from(number) % N]
    }

    /// Puts a class under another one, whose least number is lower.
    pub fn put_under(&mut self, lower: u16, higher: u16) {
        self.parent[usize::from(higher) % N] = lower;
    }
}
