//! Type tables. A type table is a finite lattice of types. It is read from bytes and checked
//! (refusals 1 to 3). It gives meets, joins and wanted types, and tells whether it admits
//! differences (whether it is a Brouwer lattice). A set of types is a 64-bit word: bit j
//! stands for type j, as in a row of the table.

/// The number of a type.
pub type Type = u8;

/// A set of types, bit j standing for type j.
type TypeSet = u64;

/// A table has at most this many types.
pub const MOST_TYPES: usize = 64;

/// The contradiction, the least type.
pub const CONTRADICTION: Type = 0;

/// Why a table is not accepted.
#[derive(Clone, Copy, Debug, PartialEq, Eq)]
pub enum TableFault {
    /// 1: n is not 2 to 64, or the length is not 8 × n.
    Size,
    /// 2: a bit at n or above; not an order; 0 not least; n−1 not greatest.
    Order,
    /// 3: two types without a meet or a join.
    Bounds,
}

impl TableFault {
    /// The number of this fault in document 01.
    pub fn number(self) -> u8 {
        match self {
            TableFault::Size => 1,
            TableFault::Order => 2,
            TableFault::Bounds => 3,
        }
    }
}

/// An accepted type table.
#[derive(Clone, Debug, PartialEq, Eq)]
pub struct Table {
    n: usize,
    /// `down[i]` holds the types below or equal to i: row i of the table.
    down: [TypeSet; MOST_TYPES],
    /// `up[i]` holds the types above or equal to i.
    up: [TypeSet; MOST_TYPES],
    meets: [[Type; MOST_TYPES]; MOST_TYPES],
    joins: [[Type; MOST_TYPES]; MOST_TYPES],
}

impl Table {
    /// Reads and checks a table of n types. The checks are made in the order 1, 2, 3.
    pub fn accept(n: usize, bytes: &[u8]) -> Result<Table, TableFault> {
        if !(2..=MOST_TYPES).contains(&n) || bytes.len() != 8 * n {
            return Err(TableFault::Size);
        }
        let down = rows(bytes);
        if !is_order_with_bounds(n, &down) {
            return Err(TableFault::Order);
        }
        let mut table = Table {
            n,
            down,
            up: transposed(n, &down),
            meets: [[0; MOST_TYPES]; MOST_TYPES],
            joins: [[0; MOST_TYPES]; MOST_TYPES],
        };
        for a in 0..n {
            for b in 0..n {
                let lower_bounds = table.down[a] & table.down[b];
                let upper_bounds = table.up[a] & table.up[b];
                let Some(meet) = table.greatest(lower_bounds) else {
                    return Err(TableFault::Bounds);
                };
                let Some(join) = table.least(upper_bounds) else {
                    return Err(TableFault::Bounds);
                };
                table.meets[a][b] = meet;
                table.joins[a][b] = join;
            }
        }
        Ok(table)
    }

    /// How many types there are.
    pub fn n(&self) -> usize {
        self.n
    }

    /// The greatest type, which says nothing.
    pub fn top(&self) -> Type {
        (self.n - 1) as Type
    }

    /// Whether type `a` is below or equal to type `b`.
    pub fn below(&self, a: Type, b: Type) -> bool {
        holds(self.down[usize::from(b)], a)
    }

    /// The greatest lower bound.
    pub fn meet(&self, a: Type, b: Type) -> Type {
        self.meets[usize::from(a)][usize::from(b)]
    }

    /// The least upper bound.
    pub fn join(&self, a: Type, b: Type) -> Type {
        self.joins[usize::from(a)][usize::from(b)]
    }

    /// All types, the contradiction included.
    pub fn types(&self) -> impl Iterator<Item = Type> + use<> {
        0..self.n as Type
    }

    /// The residual: the greatest type c whose meet with q is below or equal to p.
    pub fn residual(&self, p: Type, q: Type) -> Option<Type> {
        self.greatest(self.set(|c| self.below(self.meet(c, q), p)))
    }

    /// Whether the residual exists for all types p and q (a Brouwer lattice).
    pub fn admits_differences(&self) -> bool {
        self.types()
            .all(|p| self.types().all(|q| self.residual(p, q).is_some()))
    }

    /// The wanted type: the greatest type whose meet with `over` equals `p`.
    /// If the table admits differences and p is below `over`, it is the residual.
    pub fn wanted(&self, over: Type, p: Type) -> Option<Type> {
        self.greatest(self.set(|c| self.meet(c, over) == p))
    }

    /// The set of the types that pass a test.
    fn set(&self, test: impl Fn(Type) -> bool) -> TypeSet {
        self.types()
            .filter(|&c| test(c))
            .fold(0, |set, c| set | 1 << c)
    }

    /// The member of a set that all members are below or equal to.
    fn greatest(&self, set: TypeSet) -> Option<Type> {
        self.types()
            .find(|&c| holds(set, c) && set & !self.down[usize::from(c)] == 0)
    }

    /// The member of a set that all members are above or equal to.
    fn least(&self, set: TypeSet) -> Option<Type> {
        self.types()
            .find(|&c| holds(set, c) && set & !self.up[usize::from(c)] == 0)
    }
}

/// Whether a type is a member of a set.
fn holds(set: TypeSet, member: Type) -> bool {
    set >> member & 1 == 1
}

/// The rows of a table, 8 bytes each: bit j is bit j mod 8 of byte j div 8.
fn rows(bytes: &[u8]) -> [TypeSet; MOST_TYPES] {
    let mut rows = [0; MOST_TYPES];
    for (row, bytes) in rows.iter_mut().zip(bytes.chunks(8)) {
        for (place, &byte) in bytes.iter().enumerate() {
            *row |= TypeSet::from(byte) << (8 * place);
        }
    }
    rows
}

/// The rows of the opposite order.
fn transposed(n: usize, down: &[TypeSet; MOST_TYPES]) -> [TypeSet; MOST_TYPES] {
    let mut up = [0; MOST_TYPES];
    for (i, &row) in down.iter().enumerate().take(n) {
        for (j, above) in up.iter_mut().enumerate().take(n) {
            if holds(row, j as Type) {
                *above |= 1 << i;
            }
        }
    }
    up
}

/// Whether the rows are an order on the types 0 to n−1, with 0 least and n−1 greatest.
fn is_order_with_bounds(n: usize, down: &[TypeSet; MOST_TYPES]) -> bool {
    let below = |a: usize, b: usize| holds(down[b], a as Type);
    let types = || 0..n;
    let inside = types().all(|i| (n..MOST_TYPES).all(|j| !below(j, i)));
    let reflexive = types().all(|a| below(a, a));
    let antisymmetric = types().all(|a| types().all(|b| !(below(a, b) && below(b, a)) || a == b));
    // Transitive: where a is below b, all that is below a is below b.
    let transitive = types().all(|a| types().all(|b| !below(a, b) || down[a] & !down[b] == 0));
    let bounded = types().all(|a| below(0, a) && below(a, n - 1));
    inside && reflexive && antisymmetric && transitive && bounded
}
