//! jump and invoke, by their rules in document 01's "Typing by position", and the endings that are
//! always to be had.

use super::orders::{apply, cost, Order};
use super::{Draft, Outcome, Writer, BYTES_TO_END};
use crate::layout::{MOST_DEPTH, MOST_WIDTH};
use crate::terms::{Arithmetic, Extern, Last, Statement, Straight, Type};

impl Writer<'_> {
    /// Ends the draft: as the shape likes it, or else as it can.
    pub(super) fn end(&mut self, mut draft: Draft) -> Statement {
        for _ in 0..3 {
            if let Some(wish) = self.random.weighted(&self.shape.endings) {
                if let Outcome::Ended(last) = self.grant(wish, &mut draft) {
                    return Statement { straight: draft.straight, last };
                }
            }
        }
        self.surely_end(draft)
    }

    /// Ends the draft with no more than its reserve.
    fn surely_end(&mut self, mut draft: Draft) -> Statement {
        let before = draft.straight.len();
        let (last, bytes) = match self.find(&draft, Type::Ext) {
            Some(position) => (Last::Extern(Extern::Exit(position)), 3),
            None if draft.depth < MOST_DEPTH => (self.exit_with_literal(&mut draft), 15),
            None => {
                let label = self.nullary.expect("can_end was tested");
                draft.straight.push(Straight::Substitute(Vec::new()));
                (Last::Jump(label), 2)
            }
        };
        let substitutes = draft.straight.len() - before;
        self.bytes_left += BYTES_TO_END - bytes - 2 * substitutes;
        Statement { straight: draft.straight, last }
    }

    fn exit_with_literal(&mut self, draft: &mut Draft) -> Last {
        if draft.width() == MOST_WIDTH {
            draft.straight.push(Straight::Substitute(Vec::new()));
            draft.types.clear();
        }
        let clause = Statement::exit(draft.width() as u8);
        Last::Extern(Extern::Lit(self.random.integer(), Box::new(clause)))
    }

    /// A jump to some label whose list can be had, tried with a few.
    pub(super) fn some_jump(&mut self, draft: &mut Draft) -> Outcome {
        for _ in 0..4 {
            let label = self.random.below(self.lists.len());
            let lists = self.lists;
            if let Some(order) = self.whole_order(draft, &lists[label]) {
                if self.pay_for_end(cost(draft, &order) + 2) {
                    apply(draft, order);
                    return Outcome::Ended(Last::Jump(label as u8));
                }
            }
        }
        Outcome::Nothing
    }

    /// An invoke of some consumer with some symbol, tried with a few.
    pub(super) fn some_invoke(&mut self, draft: &mut Draft) -> Outcome {
        let is_consumer = |one: &&Type| matches!(one, Type::Cns(_));
        let consumers: Vec<Type> = draft.types.iter().filter(is_consumer).copied().collect();
        for _ in 0..4 {
            if let Some(Type::Cns(signature)) = self.random.pick(&consumers) {
                if let Outcome::Ended(last) = self.invoke_of(draft, usize::from(signature)) {
                    return Outcome::Ended(last);
                }
            }
        }
        Outcome::Nothing
    }

    fn invoke_of(&mut self, draft: &mut Draft, signature: usize) -> Outcome {
        let symbols = &self.signatures[signature].symbols;
        if symbols.is_empty() {
            return Outcome::Nothing;
        }
        let symbol = self.random.below(symbols.len());
        let mut wanted = symbols[symbol].clone();
        wanted.push(Type::Cns(signature as u8));
        match self.whole_order(draft, &wanted) {
            Some(order) if self.pay_for_end(cost(draft, &order) + 2) => {
                apply(draft, order);
                Outcome::Ended(Last::Invoke(symbol as u8))
            }
            _ => Outcome::Nothing,
        }
    }

    /// An order that gives exactly this list, `None` where an entry is lacking.
    fn whole_order(&mut self, draft: &Draft, list: &[Type]) -> Option<Order> {
        self.order_ending_in(draft, list, 0)
    }

    /// `ifz` of some integer; where it is zero some ending, else a jump that takes it along less
    /// one. Programs of many such jumps loop and come to an end.
    pub(super) fn counted_jump(&mut self, draft: &mut Draft) -> Outcome {
        let label = self.random.below(self.lists.len());
        let lists = self.lists;
        let list = &lists[label];
        let deep_enough = draft.depth + 3 <= self.shape.depth.min(MOST_DEPTH);
        let (Some(counter), true) = (self.find(draft, Type::Ext), deep_enough) else {
            return Outcome::Nothing;
        };
        if draft.width() + 2 > MOST_WIDTH || !list.contains(&Type::Ext) {
            return Outcome::Nothing;
        }
        let Some(mut order) = self.find_all(draft, list) else {
            return Outcome::Nothing;
        };
        // ifz and its two clauses; lit and its clause; sub and its clause; substitute; jump.
        let bytes = 3 + (2 + BYTES_TO_END) + 2 + 12 + 6 + (2 + order.len()) + 2;
        if !self.pay_for_end(bytes) {
            return Outcome::Nothing;
        }
        let one = draft.width() as u8;
        let counters: Vec<usize> =
            (0..list.len()).filter(|&place| list[place] == Type::Ext).collect();
        order[counters[self.random.below(counters.len())]] = one + 1;
        let next = Statement::substitute(&order, Statement::jump(label as u8));
        let next = Statement::compute(Arithmetic::Sub, counter, one, next);
        let zero = Draft::new(draft.types.clone(), draft.depth + 1);
        let share = self.bytes_left / 2;
        let zero = self.within(share, |writer| writer.statement(zero));
        let clauses = Box::new([zero, Statement::lit(1, next)]);
        Outcome::Ended(Last::Extern(Extern::Ifz(counter, clauses)))
    }
}
