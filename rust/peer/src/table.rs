//! The type table: for each type a word of the types below or equal to it. Also the wanted types
//! of a difference.

use crate::Refusal;

/// A type table. It is an order with a least and a greatest type; `open` also checks meets and
/// joins.
pub struct Table {
    /// How many types there are.
    pub n: usize,
    /// Bit j of word i: type j is below or equal to type i.
    pub down: [u64; 64],
}

impl Table {
    /// An accepted table, or 1, 2 or 3. One pass over the types checks order and meets.
    pub fn open(n: usize, bytes: &[u8]) -> Result<Table, Refusal> {
        let table = Table::with_rows(n, bytes)?;
        let mut has_bounds = true;
        for i in 0..n {
            let covered = covered(&table.down, i).ok_or(Refusal::of(2))?;
            has_bounds = has_bounds && has_meets(&table.down, covered);
        }
        match has_bounds {
            true => Ok(table),
            false => Err(Refusal::of(3)),
        }
    }

    /// A table that is an order with a least and a greatest type, or 1 or 2. Meets and joins are
    /// not checked.
    pub fn read(n: usize, bytes: &[u8]) -> Result<Table, Refusal> {
        let table = Table::with_rows(n, bytes)?;
        match (0..n).all(|i| covered(&table.down, i).is_some()) {
            true => Ok(table),
            false => Err(Refusal::of(2)),
        }
    }

    /// A table in which 0 is below every type and every type is below n − 1, or 1 or 2. Whether it
    /// is an order is not checked.
    fn with_rows(n: usize, bytes: &[u8]) -> Result<Table, Refusal> {
        if !(2..=64).contains(&n) || bytes.len() != 8 * n {
            return Err(Refusal::of(1));
        }
        let mut down = [0; 64];
        for (word, row) in down.iter_mut().zip(bytes.chunks_exact(8)) {
            *word = u64::from_le_bytes(row.try_into().expect("8 bytes"));
        }
        let all = u64::MAX >> (64 - n);
        let mut rows = down[..n].iter().enumerate();
        let is_set = rows.all(|(i, &row)| row & !all == 0 && row >> i & 1 == 1 && row & 1 == 1);
        match down[n - 1] == all && is_set {
            true => Ok(Table { n, down }),
            false => Err(Refusal::of(2)),
        }
    }

    /// Whether every two types have a meet. They then have a join too, since there is a greatest
    /// type. It is enough to check every two types that one type covers.
    pub fn has_bounds(&self) -> bool {
        let mut covers = (0..self.n).filter_map(|i| covered(&self.down, i));
        covers.all(|covered| has_meets(&self.down, covered))
    }

    pub fn is_below(&self, lower: u8, upper: u8) -> bool {
        self.down[usize::from(upper)] >> lower & 1 == 1
    }

    /// The greatest type whose meet with q is p, if there is one. `over` is the word of q.
    pub fn wanted(&self, p: u8, over: u64) -> Option<u8> {
        let top = self.n - 1;
        let lower = self.down[usize::from(p)];
        if over == lower {
            return Some(top as u8);
        }
        if over == self.down[top] {
            return Some(p);
        }
        // What is below some type that restores; the greatest has all of it below.
        let mut types = 0;
        for &down in &self.down[..self.n] {
            types |= if down & over == lower { down } else { 0 };
        }
        type_of(&self.down, types)
    }
}

/// Whether every two types of a word have a meet.
fn has_meets(down: &[u64; 64], types: u64) -> bool {
    bits(types).all(|a| {
        let higher = types & (!1 << a);
        bits(higher).all(|b| type_of(down, down[a] & down[b]).is_some())
    })
}

/// The types that type i covers. The loop takes the highest numbered type strictly below i, leaves
/// out all types below it, and goes on with the rest. It gives none if a type below a taken one is
/// not strictly below i. If it gives a word for every type, the table is an order.
fn covered(down: &[u64; 64], i: usize) -> Option<u64> {
    let lower = down[i] & !(1 << i);
    let mut left = lower;
    let mut taken = 0;
    while left != 0 {
        let c = End::High.bit(left);
        if down[c] & !lower != 0 {
            return None;
        }
        taken = taken & !down[c] | 1 << c;
        left &= !down[c];
    }
    Some(taken)
}

/// The places of the bits that are set in a word, lowest first.
pub fn bits(mut word: u64) -> impl Iterator<Item = usize> {
    std::iter::from_fn(move || {
        let bit = word.trailing_zeros() as usize;
        (word != 0).then(|| {
            word &= word - 1;
            bit
        })
    })
}

/// An end of a word. If the numbers of the types follow the order, the type of a word of lower
/// types is its highest bit, and the type of a word of upper types is its lowest bit.
#[derive(Clone, Copy)]
pub enum End {
    Low,
    High,
}

impl End {
    /// The bit at this end; the word is not 0.
    pub fn bit(self, word: u64) -> usize {
        match self {
            End::Low => word.trailing_zeros() as usize,
            End::High => 63 - word.leading_zeros() as usize,
        }
    }

    pub fn other(self) -> End {
        match self {
            End::Low => End::High,
            End::High => End::Low,
        }
    }
}

/// The type whose word of lower types is the given word, if there is one.
pub fn type_of(down: &[u64; 64], word: u64) -> Option<u8> {
    if word == 0 {
        return None;
    }
    let bit = End::High.bit(word);
    if down[bit] == word {
        return Some(bit as u8);
    }
    search(down, word, word & !down[bit], End::Low)
}

/// The type in `part` whose word is `word`, if there is one. The search goes from both ends in
/// turn. With a type that has another word, it leaves out all types of that other word.
pub fn search(words: &[u64; 64], word: u64, part: u64, first: End) -> Option<u8> {
    let (mut left, mut end) = (part, first);
    while left != 0 {
        let bit = end.bit(left);
        if words[bit] == word {
            return Some(bit as u8);
        }
        left &= !words[bit];
        end = end.other();
    }
    None
}
