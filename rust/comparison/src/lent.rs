//! Outputs that show a write outside of them.

use record_engine::Row;
use reference::random::Xorshift;

/// The number of elements on each side of an output, which no call may change.
const MARGIN: usize = 16;

/// An output of bytes or of rows, between other elements that show a write outside of the output.
#[derive(Clone, PartialEq, Eq)]
pub struct Lent<T = u8> {
    elements: Vec<T>,
}

impl Lent {
    /// An output of a given length that holds any bytes.
    pub fn new(random: &mut Xorshift, room: usize) -> Lent {
        let start = random.pick(256);
        Lent::of(room, |place| any_byte(start, place))
    }

    /// The given bytes, between other bytes.
    pub fn holding(random: &mut Xorshift, bytes: &[u8]) -> Lent {
        let mut lent = Lent::new(random, bytes.len());
        lent.output().copy_from_slice(bytes);
        lent
    }
}

impl Lent<Row> {
    /// An output of a given length that holds any rows.
    pub fn rows(random: &mut Xorshift, room: usize) -> Lent<Row> {
        let start = random.pick(256);
        Lent::of(room, |place| Row {
            parent: any_byte(start, 3 * place),
            feature: any_byte(start, 3 * place + 1),
            target: any_byte(start, 3 * place + 2),
        })
    }
}

impl<T: Copy> Lent<T> {
    /// An output of a given length whose elements depend on their places.
    fn of(room: usize, element: impl FnMut(usize) -> T) -> Lent<T> {
        Lent {
            elements: (0..MARGIN + room + MARGIN).map(element).collect(),
        }
    }

    /// The same output with every element changed.
    pub fn map<U: Copy>(&self, mut change: impl FnMut(T) -> U) -> Lent<U> {
        let room = self.all().len();
        Lent::of(room, |place| change(self.elements[place]))
    }

    /// The elements that a call is lent.
    pub fn output(&mut self) -> &mut [T] {
        let end = self.elements.len() - MARGIN;
        &mut self.elements[MARGIN..end]
    }

    /// All elements, also those around the output.
    pub fn all(&self) -> &[T] {
        &self.elements[MARGIN..self.elements.len() - MARGIN]
    }

    /// The first elements of the output, as many as are given.
    pub fn first(&self, count: usize) -> Vec<T> {
        self.all()[..count].to_vec()
    }
}

/// A byte that depends on its place.
fn any_byte(start: usize, place: usize) -> u8 {
    (start + 167 * place) as u8
}

/// The outputs that a call is lent.
pub fn outputs(lent: &mut [Lent]) -> Vec<&mut [u8]> {
    lent.iter_mut().map(Lent::output).collect()
}
