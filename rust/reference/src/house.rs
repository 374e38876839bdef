//! The house types (Paper 8): 64 types with three grades of 0 to 3. The number of a type is
//! 16 × first + 4 × second + third. A type is below another when each of its grades is at
//! most the other's.

use crate::random::TableBytes;
use crate::table::MOST_TYPES;

/// The first, second and third grade of a type.
pub fn grades(number: usize) -> [usize; 3] {
    [number / 16, number / 4 % 4, number % 4]
}

/// Whether type `a` is below or equal to type `b`.
pub fn is_below(a: usize, b: usize) -> bool {
    grades(a).iter().zip(grades(b)).all(|(&x, y)| x <= y)
}

/// The type that has in each grade the lesser of two types' grades.
pub fn lesser(a: usize, b: usize) -> usize {
    let [x, y, z] = std::array::from_fn(|grade| grades(a)[grade].min(grades(b)[grade]));
    16 * x + 4 * y + z
}

/// The type table of the house types.
pub fn table() -> TableBytes {
    TableBytes::of_relation(MOST_TYPES, is_below)
}
