//! Counts how often each reply came, so that a test can check that its inputs reach all cases
//! that it is about.

use crate::told::Told;
use reference::order::Order;
use reference::random;

/// One more than the greatest number of a refusal.
const NUMBERS: usize = 25;

/// How often each reply of a call came.
#[derive(Clone, Copy, Default)]
pub struct Counts {
    /// The number of lengths, at 0, and of refusals, by the papers' number.
    replies: [usize; NUMBERS],
    /// The number of refusals of the first graph and of the second, by the papers' number.
    sides: [[usize; 2]; NUMBERS],
    /// The number of the order's answers, by their places in `Order::ALL`.
    answers: [usize; 4],
    /// The number of times that a listing ended.
    ends: usize,
    /// The number of times that rows and nodes were filled.
    fills: usize,
}

impl Counts {
    /// Counts a reply.
    pub fn count(&mut self, told: Told) {
        match told {
            Told::Length(_) => self.replies[0] += 1,
            Told::Order(place) => self.answers[place] += 1,
            Told::End => self.ends += 1,
            Told::Counts(..) => self.fills += 1,
            Told::Refused(number, side) => {
                let number = usize::from(number);
                self.replies[number] += 1;
                if let Some(side) = side {
                    self.sides[number][side] += 1;
                }
            }
        }
    }

    /// With the stored seeds, each of these replies came at least this often, and no other reply
    /// came; 0 stands for a length.
    pub fn assert_replies(&self, numbers: &[usize], least: usize) {
        self.assert_replies_beside(numbers, least, &[]);
    }

    /// With the stored seeds, each of these replies came at least this often. Other replies may
    /// have come too.
    pub fn assert_replies_beside(&self, numbers: &[usize], least: usize, others: &[usize]) {
        for (number, &count) in self.replies.iter().enumerate() {
            let enough = match numbers.contains(&number) {
                true => count >= least,
                false => count == 0 || others.contains(&number),
            };
            let enough = enough || !random::is_stored();
            assert!(enough, "reply {number}: {:?}", self.replies);
        }
    }

    /// With the stored seeds, each of these refusals came at least this often of the first graph
    /// and at least this often of the second.
    pub fn assert_sides(&self, numbers: &[usize], least: usize) {
        for &number in numbers {
            let [first, second] = self.sides[number];
            let enough = first.min(second) >= least || !random::is_stored();
            assert!(enough, "reply {number}: {first} first, {second} second");
        }
    }

    /// With the stored seeds, each of these refusals came at least this often of the second graph,
    /// and never of the first.
    pub fn assert_second(&self, numbers: &[usize], least: usize) {
        for &number in numbers {
            let [first, second] = self.sides[number];
            assert_eq!(first, 0, "reply {number}");
            let enough = second >= least || !random::is_stored();
            assert!(enough, "reply {number}: {second} second");
        }
    }

    /// Every refusal of a graph was of this graph: 0 for the first, 1 for the second.
    pub fn assert_only_side(&self, side: usize) {
        let other = self
            .sides
            .iter()
            .map(|sides| sides[1 - side])
            .sum::<usize>();
        assert_eq!(other, 0, "{:?}", self.sides);
    }

    /// With the stored seeds, each of the order's four answers came at least this often.
    pub fn assert_answers(&self, least: usize) {
        for order in Order::ALL {
            let enough = self.answers[order as usize] >= least || !random::is_stored();
            assert!(enough, "{order:?}: {:?}", self.answers);
        }
    }

    /// With the stored seeds, a listing ended at least this often.
    pub fn assert_ends(&self, least: usize) {
        let enough = self.ends >= least || !random::is_stored();
        assert!(enough, "{} ends", self.ends);
    }

    /// With the stored seeds, rows and nodes were filled at least this often.
    pub fn assert_fills(&self, least: usize) {
        let enough = self.fills >= least || !random::is_stored();
        assert!(enough, "{} fills", self.fills);
    }
}
