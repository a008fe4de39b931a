//! Bringing an environment into the order that the next statement asks for; document 01:
//! "dropping and repeating are allowed only here", in substitute.

use super::{Draft, Outcome, Writer};
use crate::layout::MOST_WIDTH;
use crate::terms::{Straight, Type};

/// The positions of a substitute that is still to be written.
pub(super) type Order = Vec<u8>;

/// Bytes of the substitute, none where it would change nothing.
pub(super) fn cost(draft: &Draft, order: &Order) -> usize {
    if changes_nothing(draft, order) {
        0
    } else {
        2 + order.len()
    }
}

/// The environment after the substitute.
pub(super) fn types_after(draft: &Draft, order: &[u8]) -> Vec<Type> {
    order.iter().map(|&position| draft.types[usize::from(position)]).collect()
}

/// Writes the substitute, unless it would change nothing.
pub(super) fn apply(draft: &mut Draft, order: Order) {
    if !changes_nothing(draft, &order) {
        draft.types = types_after(draft, &order);
        draft.straight.push(Straight::Substitute(order));
    }
}

fn changes_nothing(draft: &Draft, order: &Order) -> bool {
    order.iter().copied().eq(0..draft.width() as u8)
}

impl Writer<'_> {
    /// A substitute for its own sake, towards the width that the shape asks for.
    pub(super) fn substitute(&mut self, draft: &mut Draft) -> Outcome {
        let order = self.some_order(draft);
        let types = types_after(draft, &order);
        if !self.can_end(&types, draft.depth) || !self.pay(2 + order.len()) {
            return Outcome::Nothing;
        }
        draft.types = types;
        draft.straight.push(Straight::Substitute(order));
        Outcome::Longer
    }

    /// Some entries in some order, dropped and repeated at will; seldom none at all.
    fn some_order(&mut self, draft: &Draft) -> Order {
        let width = draft.width();
        if width == 0 || self.random.one_in(64) {
            return Order::new();
        }
        let most = self.shape.width.clamp(1, MOST_WIDTH);
        let count = if self.random.one_in(4) { most } else { self.random.between(1, most) };
        let repeating = self.random.one_in(2);
        let mut order: Order = (0..count)
            .map(|place| if repeating { self.random.below(width) } else { place % width })
            .map(|position| position as u8)
            .collect();
        if self.random.one_in(2) {
            self.random.shuffle(&mut order);
        }
        order
    }

    /// An order that ends with entries of these types, before which at most `most_kept` entries
    /// are kept. `None` where an entry is lacking.
    pub(super) fn order_ending_in(
        &mut self,
        draft: &Draft,
        wanted: &[Type],
        most_kept: usize,
    ) -> Option<Order> {
        let stands_already = draft.types.ends_with(wanted)
            && draft.width() - wanted.len() <= most_kept
            && !self.random.one_in(4);
        if stands_already {
            return Some((0..draft.width() as u8).collect());
        }
        let found = self.find_all(draft, wanted)?;
        let mut order = self.some_kept(draft, most_kept);
        order.extend(found);
        Some(order)
    }

    /// Positions of entries with these types, `None` where one is lacking.
    pub(super) fn find_all(&mut self, draft: &Draft, wanted: &[Type]) -> Option<Order> {
        wanted.iter().map(|&one| self.find(draft, one)).collect()
    }

    /// The position of some entry of this type; mostly of a young one, which says more.
    pub(super) fn find(&mut self, draft: &Draft, wanted: Type) -> Option<u8> {
        let positions: Vec<u8> = (0..draft.width() as u8)
            .filter(|&position| draft.types[usize::from(position)] == wanted)
            .collect();
        if self.random.one_in(3) {
            return positions.last().copied();
        }
        self.random.pick(&positions)
    }

    /// Entries to keep: all, so far as they may, or some of them.
    pub(super) fn some_kept(&mut self, draft: &Draft, most: usize) -> Order {
        let mut kept: Order = (0..draft.width() as u8).collect();
        if self.random.one_in(3) {
            kept.retain(|_| !self.random.one_in(4));
        }
        while kept.len() > most {
            let dropped = self.random.below(kept.len());
            kept.remove(dropped);
        }
        kept
    }
}
