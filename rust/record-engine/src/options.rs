//! The calls over a table with a reading order or a list of types for features.

use crate::{FEATURES, LONGEST_RECORD, MOST_LINKS, Reason, Refusal, Table};

/// The calls over a table, with a reading order, with a list of types for features, with both
/// or with neither. The reading order is for the differences, and the list is for the other
/// calls. [`Table::options`] gives options with neither. Each of the two is accepted when it is
/// added.
///
/// ```
/// use record_engine::{FEATURES, Table};
/// let diamond = Table::from_order(4, &[])?;
/// // Feature 63 is read first and feature 0 last. Only nodes of type 1 may have feature 0, and
/// // all nodes may have the other features.
/// let reading: Vec<u8> = (0..FEATURES as u8).rev().collect();
/// let mut types = [3; FEATURES];
/// types[0] = 1;
/// let clinic = diamond.options().reading_order(&reading)?.appropriateness(&types)?;
/// // A root of type 1 whose features 0 and 1 lead to one node, of the type given.
/// let record = |leaf| [2, 1, 3, 0, 0, 0, 0, 0, 0, 0, 1, 1, leaf, 0, 0, 0, 0, 0, 0, 0, 0];
/// let common = clinic.generalize(&record(1), &record(2))?;
/// assert_eq!(common, record(3));
/// // The two links say the same. The difference keeps the link of feature 1.
/// let rest = clinic.difference(&common, &record(1))?;
/// assert_eq!(rest, [2, 3, 2, 0, 0, 0, 0, 0, 0, 0, 1, 1, 0, 0, 0, 0, 0, 0, 0, 0]);
/// // A difference need not obey the list, so it is combined without the list.
/// assert_eq!(diamond.unify(&common, &rest)?, record(1));
/// # Ok::<(), record_engine::Refusal>(())
/// ```
#[derive(Clone, Copy, Debug)]
#[must_use]
pub struct Options<'a> {
    table: &'a Table,
    reading_order: Option<[u8; FEATURES]>,
    appropriateness: Option<[u8; FEATURES]>,
}

impl<'a> Options<'a> {
    /// Options with neither of the two.
    pub(crate) fn new(table: &'a Table) -> Options<'a> {
        Options {
            table,
            reading_order: None,
            appropriateness: None,
        }
    }

    /// The same options with a reading order, which is a list of all 64 features, each once. It
    /// replaces a reading order that was added before.
    ///
    /// ```
    /// use record_engine::{Refusal, Table};
    /// let diamond = Table::from_order(4, &[])?;
    /// let refused = diamond.options().reading_order(&[1, 0]).unwrap_err();
    /// assert_eq!(refused, Refusal::ReadingOrder);
    /// # Ok::<(), Refusal>(())
    /// ```
    ///
    /// # Errors
    ///
    /// Refused by [`Refusal::ReadingOrder`] (19).
    pub fn reading_order(self, list: &[u8]) -> Result<Options<'a>, Refusal> {
        let top = lone_top(self.table);
        let (n, table) = (self.table.n(), self.table.as_bytes());
        written(|output| crate::difference_by(n, table, list, &top, &top, output))?;
        let reading_order = list.try_into().ok();
        Ok(Options {
            reading_order,
            ..self
        })
    }

    /// The same options with a list of types for features, also called an appropriateness list.
    /// For each of the 64 features it has the broadest type that may have the feature. It
    /// replaces a list that was added before.
    ///
    /// ```
    /// use record_engine::{FEATURES, GraphFault, Refusal, Side, Table};
    /// let diamond = Table::from_order(4, &[])?;
    /// // No type may have a feature.
    /// let clinic = diamond.options().appropriateness(&[0; FEATURES])?;
    /// let record = [2, 3, 1, 0, 0, 0, 0, 0, 0, 0, 1, 1, 0, 0, 0, 0, 0, 0, 0, 0];
    /// let refused = Refusal::Graph(GraphFault::Inappropriate, Side::First);
    /// assert_eq!(clinic.rewrite(&record), Err(refused));
    /// // The diamond has no type 4.
    /// let refused = diamond.options().appropriateness(&[4; FEATURES]).unwrap_err();
    /// assert_eq!(refused, Refusal::TypeList);
    /// # Ok::<(), Refusal>(())
    /// ```
    ///
    /// # Errors
    ///
    /// Refused by [`Refusal::TypeList`] (17).
    pub fn appropriateness(self, list: &[u8]) -> Result<Options<'a>, Refusal> {
        let top = lone_top(self.table);
        let (n, table) = (self.table.n(), self.table.as_bytes());
        written(|output| crate::rewrite_appropriate(n, table, list, &top, output))?;
        let appropriateness = list.try_into().ok();
        Ok(Options {
            appropriateness,
            ..self
        })
    }

    /// The written record of a record that obeys the list of types for features, as
    /// [`Table::rewrite`] gives it.
    ///
    /// ```
    /// use record_engine::{FEATURES, GraphFault, Refusal, Side, Table};
    /// let diamond = Table::from_order(4, &[])?;
    /// // Feature 0 is for type 1 alone, the others are for no type.
    /// let mut types = [0; FEATURES];
    /// types[0] = 1;
    /// let clinic = diamond.options().appropriateness(&types)?;
    /// // A root whose feature 0 leads to a node.
    /// let record = |root, leaf| {
    ///     [2, root, 1, 0, 0, 0, 0, 0, 0, 0, 1, leaf, 0, 0, 0, 0, 0, 0, 0, 0]
    /// };
    /// assert_eq!(clinic.rewrite(&record(1, 2))?, record(1, 2));
    /// // Top is not below type 1.
    /// let refused = Refusal::Graph(GraphFault::Inappropriate, Side::First);
    /// assert_eq!(clinic.rewrite(&record(3, 2)), Err(refused));
    /// # Ok::<(), Refusal>(())
    /// ```
    ///
    /// # Errors
    ///
    /// Refused as by [`Table::rewrite`], and by [`GraphFault::Inappropriate`] (18) straight
    /// after 7.
    ///
    /// [`GraphFault::Inappropriate`]: crate::GraphFault::Inappropriate
    pub fn rewrite(&self, record: &[u8]) -> Result<Vec<u8>, Refusal> {
        let (n, table) = (self.table.n(), self.table.as_bytes());
        written(|output| match &self.appropriateness {
            None => crate::rewrite(n, table, record, output),
            Some(list) => crate::rewrite_appropriate(n, table, list, record, output),
        })
    }

    /// The common part of two records that obey the list of types for features, as
    /// [`Table::generalize`] gives it. The common part obeys the list too.
    ///
    /// ```
    /// use record_engine::{FEATURES, GraphFault, Refusal, Side, Table};
    /// let diamond = Table::from_order(4, &[])?;
    /// // Feature 0 is for type 1 alone, the others are for no type.
    /// let mut types = [0; FEATURES];
    /// types[0] = 1;
    /// let clinic = diamond.options().appropriateness(&types)?;
    /// // A root whose feature 0 leads to a node.
    /// let record = |root, leaf| {
    ///     [2, root, 1, 0, 0, 0, 0, 0, 0, 0, 1, leaf, 0, 0, 0, 0, 0, 0, 0, 0]
    /// };
    /// assert_eq!(clinic.generalize(&record(1, 1), &record(1, 2))?, record(1, 3));
    /// let refused = Refusal::Graph(GraphFault::Inappropriate, Side::Second);
    /// assert_eq!(clinic.generalize(&record(1, 1), &record(2, 1)), Err(refused));
    /// # Ok::<(), Refusal>(())
    /// ```
    ///
    /// # Errors
    ///
    /// Refused as by [`Table::generalize`], and by [`GraphFault::Inappropriate`] (18)
    /// straight after each record's 7.
    ///
    /// [`GraphFault::Inappropriate`]: crate::GraphFault::Inappropriate
    pub fn generalize(&self, first: &[u8], second: &[u8]) -> Result<Vec<u8>, Refusal> {
        let (n, table) = (self.table.n(), self.table.as_bytes());
        written(|output| match &self.appropriateness {
            None => crate::generalize(n, table, first, second, output),
            Some(list) => crate::generalize_appropriate(n, table, list, first, second, output),
        })
    }

    /// The combination of two records that obey the list of types for features, as
    /// [`Table::unify`] gives it. The combination obeys the list too.
    ///
    /// ```
    /// use record_engine::{FEATURES, GraphFault, Refusal, Side, Table};
    /// let diamond = Table::from_order(4, &[])?;
    /// // Feature 0 is for type 1 alone, the others are for no type.
    /// let mut types = [0; FEATURES];
    /// types[0] = 1;
    /// let clinic = diamond.options().appropriateness(&types)?;
    /// // A root whose feature 0 leads to a node.
    /// let record = |root, leaf| {
    ///     [2, root, 1, 0, 0, 0, 0, 0, 0, 0, 1, leaf, 0, 0, 0, 0, 0, 0, 0, 0]
    /// };
    /// assert_eq!(clinic.unify(&record(1, 3), &record(1, 2))?, record(1, 2));
    /// let refused = Refusal::Graph(GraphFault::Inappropriate, Side::Second);
    /// assert_eq!(clinic.unify(&record(1, 3), &record(3, 2)), Err(refused));
    /// // The method of the table itself has no list.
    /// assert_eq!(diamond.unify(&record(1, 3), &record(3, 2))?, record(1, 2));
    /// # Ok::<(), Refusal>(())
    /// ```
    ///
    /// # Errors
    ///
    /// Refused as by [`Table::unify`], and by [`GraphFault::Inappropriate`] (18) straight
    /// after each record's 7.
    ///
    /// [`GraphFault::Inappropriate`]: crate::GraphFault::Inappropriate
    pub fn unify(&self, first: &[u8], second: &[u8]) -> Result<Vec<u8>, Refusal> {
        let (n, table) = (self.table.n(), self.table.as_bytes());
        written(|output| match &self.appropriateness {
            None => crate::unify(n, table, first, second, output),
            Some(list) => crate::unify_appropriate(n, table, list, first, second, output),
        })
    }

    /// The difference of a general record and a specific record below it, by the reading order.
    /// Without a reading order it is that of [`Table::difference`]. The list of types for
    /// features plays no part in it.
    ///
    /// ```
    /// use record_engine::{FEATURES, Table};
    /// let diamond = Table::from_order(4, &[])?;
    /// // In `both`, the features 0 and 1 of the root lead to one node, of the type given. In
    /// // `alone`, the root has one of the two features, given by its bit.
    /// let both = |leaf| [2, 3, 3, 0, 0, 0, 0, 0, 0, 0, 1, 1, leaf, 0, 0, 0, 0, 0, 0, 0, 0];
    /// let alone = |bit| [2, 3, bit, 0, 0, 0, 0, 0, 0, 0, 1, 1, 0, 0, 0, 0, 0, 0, 0, 0];
    /// assert_eq!(diamond.difference(&both(3), &both(1))?, alone(0b01));
    /// // Feature 1 is read before feature 0.
    /// let mut reading: Vec<u8> = (0..FEATURES as u8).collect();
    /// reading.swap(0, 1);
    /// let clinic = diamond.options().reading_order(&reading)?;
    /// assert_eq!(clinic.difference(&both(3), &both(1))?, alone(0b10));
    /// # Ok::<(), record_engine::Refusal>(())
    /// ```
    ///
    /// # Errors
    ///
    /// Refused as by [`Table::difference`].
    pub fn difference(&self, general: &[u8], specific: &[u8]) -> Result<Vec<u8>, Refusal> {
        let (n, table) = (self.table.n(), self.table.as_bytes());
        written(|output| match &self.reading_order {
            None => crate::difference(n, table, general, specific, output),
            Some(list) => crate::difference_by(n, table, list, general, specific, output),
        })
    }

    /// The difference by the reading order, and for each of its links the reason why the link is
    /// kept. The reasons stand in the order of [`Table::explained`].
    ///
    /// ```
    /// use record_engine::{FEATURES, Reason, Table};
    /// let diamond = Table::from_order(4, &[])?;
    /// let reading: Vec<u8> = (0..FEATURES as u8).rev().collect();
    /// let clinic = diamond.options().reading_order(&reading)?;
    /// // A root whose features 0 and 1 lead to one node, of the type given.
    /// let record = |leaf| [2, 3, 3, 0, 0, 0, 0, 0, 0, 0, 1, 1, leaf, 0, 0, 0, 0, 0, 0, 0, 0];
    /// let (rest, reasons) = clinic.explained(&record(3), &record(1))?;
    /// assert_eq!(rest, [2, 3, 2, 0, 0, 0, 0, 0, 0, 0, 1, 1, 0, 0, 0, 0, 0, 0, 0, 0]);
    /// assert_eq!(reasons, [Reason::Wanted]);
    /// # Ok::<(), record_engine::Refusal>(())
    /// ```
    ///
    /// # Errors
    ///
    /// Refused as by [`Table::difference`].
    pub fn explained(
        &self,
        general: &[u8],
        specific: &[u8],
    ) -> Result<(Vec<u8>, Vec<Reason>), Refusal> {
        let (n, table) = (self.table.n(), self.table.as_bytes());
        let mut reasons = [0; MOST_LINKS];
        let lent = &mut reasons;
        let difference = written(|output| match &self.reading_order {
            None => crate::difference_explained(n, table, general, specific, output, lent),
            Some(list) => {
                crate::difference_explained_by(n, table, list, general, specific, output, lent)
            }
        })?;
        // The bytes behind the last reason are still 0, and 0 is no reason.
        let reasons = reasons
            .iter()
            .map_while(|&byte| Reason::try_from(byte).ok());
        Ok((difference, reasons.collect()))
    }
}

/// The record of a lone node of type top. It has no features, so it obeys every list.
fn lone_top(table: &Table) -> [u8; 10] {
    [1, (table.n() - 1) as u8, 0, 0, 0, 0, 0, 0, 0, 0]
}

/// The record that a call writes. The output that the call gets has room for every record.
pub(crate) fn written(
    call: impl FnOnce(&mut [u8]) -> Result<usize, Refusal>,
) -> Result<Vec<u8>, Refusal> {
    let mut output = [0; LONGEST_RECORD];
    let length = call(&mut output)?;
    Ok(output[..length].to_vec())
}
