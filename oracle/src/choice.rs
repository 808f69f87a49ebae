//! The choice and the listing by document 01 alone. A set of found licensees is a mask: bit 0 is the first found.

use crate::document::{Meaning, Terms};
use crate::forms::{Leaf, Node, Refusal};

pub const MOST_FOUND: usize = 30;

/// Beyond this many masks one by one, the choice is worked out by clearing bits instead.
const PATIENCE: u64 = 1 << 20;

/// An expression and the licensees found for it.
pub struct Problem {
    /// Places in the list of the found licensees.
    pub found: Vec<usize>,
    steps: Vec<Step>,
}

/// A node; a leaf is the mask of the found licensees that satisfy it.
enum Step {
    And,
    Or,
    Leaf(u64),
}

#[derive(Debug, PartialEq)]
pub enum Chosen {
    Mask(u64),
    Paused(u64),
}

#[derive(Debug, PartialEq)]
pub enum Listed {
    Found(u64),
    Paused(u64),
    Finished(u64),
}

impl Problem {
    /// Refusal 18 where more than 30 licensees are found.
    pub fn new(text: &str, nodes: &[Node], accepted: &[Terms<'_>]) -> Result<Problem, Refusal> {
        let asked: Vec<Option<Terms<'_>>> = nodes.iter().map(|node| asked(text, node)).collect();
        let satisfies_some = |offer: &Terms<'_>| asked.iter().flatten().any(|leaf| leaf == offer);
        let mut found: Vec<usize> = Vec::new();
        for (place, offer) in accepted.iter().enumerate() {
            if satisfies_some(offer) && !found.iter().any(|earlier| accepted[*earlier] == *offer) {
                found.push(place);
            }
        }
        if found.len() > MOST_FOUND {
            return Err(Refusal::with_number(18, found.len() as u64));
        }
        let members = |leaf: &Terms<'_>| {
            let satisfying = found.iter().enumerate().filter(|(_, place)| accepted[**place] == *leaf);
            satisfying.fold(0, |mask, (bit, _)| mask | 1 << bit)
        };
        let steps = nodes
            .iter()
            .zip(&asked)
            .map(|(node, asked)| match (node, asked) {
                (Node::And, _) => Step::And,
                (Node::Or, _) => Step::Or,
                (Node::Leaf(_), asked) => Step::Leaf(asked.as_ref().map_or(0, members)),
            })
            .collect();
        Ok(Problem { found, steps })
    }

    /// 2^k.
    pub fn end(&self) -> u64 {
        1 << self.found.len()
    }

    pub fn all_satisfy(&self) -> bool {
        self.satisfies(self.end() - 1)
    }

    pub fn satisfies(&self, mask: u64) -> bool {
        // At most 64 leaves wait at once, so the waiting results fit the bits of a number, the latest lowest.
        let mut results: u64 = 0;
        for step in &self.steps {
            results = match step {
                Step::Leaf(members) => results << 1 | u64::from(members & mask != 0),
                Step::And => results >> 2 << 1 | (results >> 1 & results & 1),
                Step::Or => results >> 2 << 1 | ((results >> 1 | results) & 1),
            };
        }
        results & 1 == 1
    }

    fn every_member_needed(&self, mask: u64) -> bool {
        (0..self.found.len()).filter(|bit| mask >> bit & 1 == 1).all(|bit| !self.satisfies(mask & !(1 << bit)))
    }

    /// The first mask from 1 on that satisfies, among at most `budget` masks. All found together must satisfy.
    pub fn choose(&self, budget: u64) -> Chosen {
        let least = self.least();
        let walked = (1..=budget.min(PATIENCE)).find(|mask| self.satisfies(*mask));
        if let Some(mask) = walked {
            assert_eq!(mask, least, "walking over the masks and clearing bits must agree");
        }
        if least <= budget { Chosen::Mask(least) } else { Chosen::Paused(1 + budget) }
    }

    /// The least mask that satisfies: more members never satisfy less, so each bit from the highest down is cleared
    /// wherever the bits above as decided and all the bits below still satisfy.
    pub fn least(&self) -> u64 {
        (0..self.found.len()).rev().fold(self.end() - 1, |mask, bit| {
            let cleared = mask & !(1 << bit);
            if self.satisfies(cleared) { cleared } else { mask }
        })
    }

    /// Examines at most `budget` masks from `cursor` on, which must be in 1 to 2^k.
    pub fn list(&self, cursor: u64, budget: u64) -> Listed {
        let end = self.end();
        let stop = cursor.saturating_add(budget).min(end);
        match (cursor..stop).find(|mask| self.satisfies(*mask) && self.every_member_needed(*mask)) {
            Some(mask) => Listed::Found(mask),
            None if stop == end => Listed::Finished(end),
            None => Listed::Paused(stop),
        }
    }
}

fn asked<'t>(text: &'t str, node: &Node) -> Option<Terms<'t>> {
    let Node::Leaf(Leaf { licence, addition, .. }) = node else { return None };
    Some(Terms {
        licence: Meaning::of(text, licence),
        addition: addition.as_ref().map(|addition| Meaning::of(text, addition)),
    })
}
