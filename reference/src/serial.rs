//! The serial machine: what operations would answer one at a time.

use std::collections::BTreeMap;

use crate::word::{Answer, Operation, Place};

pub struct SerialMachine {
    /// For each place the first place with an equal item, which stands for all
    /// of them in the set.
    first_equal: Vec<usize>,
    is_member: Vec<bool>,
    stack: Vec<Place>,
}

impl SerialMachine {
    pub fn new<I: Ord>(items: &[I]) -> Self {
        SerialMachine {
            first_equal: first_equal_places(items),
            is_member: vec![false; items.len()],
            stack: Vec::new(),
        }
    }

    /// Does one operation and answers as it should be answered.
    pub fn feed(&mut self, operation: Operation) -> Answer {
        let said = |yes| if yes { Answer::Yes(0) } else { Answer::No };
        match operation {
            Operation::Insert(place) => said(!self.replace(place, true)),
            Operation::Delete(place) => said(self.replace(place, false)),
            Operation::Contains(place) => said(self.is_member[self.first_equal[place.index()]]),
            Operation::Push(place) => {
                self.stack.push(place);
                Answer::Yes(0)
            }
            Operation::Pop => self.stack.pop().map_or(Answer::No, |place| Answer::Yes(place.0)),
        }
    }

    /// Makes the item at a place a member or not and answers what it was.
    fn replace(&mut self, place: Place, member: bool) -> bool {
        std::mem::replace(&mut self.is_member[self.first_equal[place.index()]], member)
    }

    /// The members: items of the set and places on the stack together.
    #[cfg(test)]
    pub fn member_count(&self) -> usize {
        self.is_member.iter().filter(|&&member| member).count() + self.stack.len()
    }
}

/// For each place the first place with an equal item.
pub fn first_equal_places<I: Ord>(items: &[I]) -> Vec<usize> {
    let mut first = BTreeMap::new();
    items.iter().enumerate().map(|(place, item)| *first.entry(item).or_insert(place)).collect()
}

#[cfg(test)]
mod tests {
    use super::*;

    #[test]
    fn equal_items_are_one_member_and_places_are_stacked() {
        let mut machine = SerialMachine::new(&[5, 3, 5]);
        let [first, other, equal] = [Place(0), Place(1), Place(2)];
        assert_eq!(machine.feed(Operation::Insert(first)), Answer::Yes(0));
        assert_eq!(machine.feed(Operation::Insert(equal)), Answer::No);
        assert_eq!(machine.feed(Operation::Contains(other)), Answer::No);
        assert_eq!(machine.feed(Operation::Push(equal)), Answer::Yes(0));
        assert_eq!(machine.feed(Operation::Push(equal)), Answer::Yes(0));
        assert_eq!(machine.member_count(), 3);
        assert_eq!(machine.feed(Operation::Delete(equal)), Answer::Yes(0));
        assert_eq!(machine.feed(Operation::Delete(first)), Answer::No);
        assert_eq!(machine.feed(Operation::Pop), Answer::Yes(2));
        assert_eq!(machine.feed(Operation::Pop), Answer::Yes(2));
        assert_eq!(machine.feed(Operation::Pop), Answer::No);
        assert_eq!(machine.member_count(), 0);
    }
}
