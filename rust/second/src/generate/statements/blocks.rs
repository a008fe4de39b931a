//! let, new and switch, by their rules in document 01's "Typing by position".

use super::orders::{apply, cost, types_after, Order};
use super::{fits, Draft, Outcome, Writer, BYTES_TO_END};
use crate::layout::MOST_WIDTH;
use crate::terms::{in_symbol_order, Last, Straight, Type};

/// Bytes of a clause with a symbol byte, and what is put by to end it.
const BYTES_OF_CLAUSE: usize = 3 + BYTES_TO_END;

impl Writer<'_> {
    /// A let of some symbol, tried with a few.
    pub(super) fn some_let(&mut self, draft: &mut Draft) -> Outcome {
        for _ in 0..4 {
            if let Some((signature, symbol)) = self.some_symbol() {
                if let Outcome::Longer = self.let_of(draft, signature, symbol) {
                    return Outcome::Longer;
                }
            }
        }
        Outcome::Nothing
    }

    /// Brings the symbol's parameters to the end and makes a producer of them.
    pub(super) fn let_of(&mut self, draft: &mut Draft, signature: usize, symbol: usize) -> Outcome {
        let signatures = self.signatures;
        let parameters = &signatures[signature].symbols[symbol];
        let most_kept = (MOST_WIDTH - parameters.len()).min(MOST_WIDTH - 1);
        let Some(order) = self.order_ending_in(draft, parameters, most_kept) else {
            return Outcome::Nothing;
        };
        let mut after = types_after(draft, &order[..order.len() - parameters.len()]);
        after.push(Type::Prd(signature as u8));
        if !self.can_end(&after, draft.depth) || !self.pay(cost(draft, &order) + 3) {
            return Outcome::Nothing;
        }
        apply(draft, order);
        let (signature, symbol) = (signature as u8, symbol as u8);
        draft.straight.push(Straight::Let { signature, symbol });
        draft.types = after;
        Outcome::Longer
    }

    /// A new of some signature.
    pub(super) fn some_new(&mut self, draft: &mut Draft) -> Outcome {
        match self.some_signature() {
            Some(signature) => self.new_of(draft, signature),
            None => Outcome::Nothing,
        }
    }

    /// Brings what is captured to the end and makes a consumer of it.
    pub(super) fn new_of(&mut self, draft: &mut Draft, signature: usize) -> Outcome {
        let (order, captures) = self.captured(draft, signature);
        let types = types_after(draft, &order);
        let (rest, captured) = types.split_at(types.len() - captures);
        let mut after = rest.to_vec();
        after.push(Type::Cns(signature as u8));
        let Some(drafts) = self.new_drafts(draft, signature, captured) else {
            return Outcome::Nothing;
        };
        let bytes = cost(draft, &order) + 4 + drafts.len() * BYTES_OF_CLAUSE;
        if !self.can_end(&after, draft.depth) || !self.pay(bytes) {
            return Outcome::Nothing;
        }
        apply(draft, order);
        let pool = if self.shape.nest { 3 * self.bytes_left / 4 } else { self.bytes_left / 3 };
        let clauses = in_symbol_order(self.clauses(drafts, pool));
        let (signature, captures) = (signature as u8, captures as u8);
        draft.straight.push(Straight::New { signature, captures, clauses, offset: 0 });
        draft.types = after;
        Outcome::Longer
    }

    /// An order that ends with what is captured, and how much that is. Both what is kept and each
    /// clause's parameters find place beside it.
    fn captured(&mut self, draft: &Draft, signature: usize) -> (Order, usize) {
        let symbols = &self.signatures[signature].symbols;
        let parameters = symbols.iter().map(Vec::len).max().unwrap_or(0);
        let most = if draft.width() == 0 { 0 } else { MOST_WIDTH - parameters };
        let captures = self.random.up_to(most.min(self.shape.width));
        let kept_as_they_are = draft.width().checked_sub(captures);
        if kept_as_they_are.is_some_and(|kept| kept < MOST_WIDTH) && self.random.one_in(2) {
            return ((0..draft.width() as u8).collect(), captures);
        }
        let most_kept = (MOST_WIDTH - captures).min(MOST_WIDTH - 1);
        let mut order = self.some_kept(draft, most_kept);
        order.extend((0..captures).map(|_| self.random.below(draft.width()) as u8));
        (order, captures)
    }

    /// Drafts of the clauses of a new, `None` where they may not stand here.
    fn new_drafts(&self, draft: &Draft, signature: usize, captured: &[Type]) -> Option<Vec<Draft>> {
        let start = |parameters: &Vec<Type>| [parameters, captured].concat();
        self.drafts(draft, signature, start)
    }

    /// Drafts of one clause per symbol, started as `start` says; `None` where one may not stand
    /// here or could not be ended.
    fn drafts(
        &self,
        draft: &Draft,
        signature: usize,
        start: impl Fn(&Vec<Type>) -> Vec<Type>,
    ) -> Option<Vec<Draft>> {
        let symbols = &self.signatures[signature].symbols;
        if !symbols.is_empty() && !self.may_open(draft) {
            return None;
        }
        let clause = |parameters| {
            let types = start(parameters);
            let lawful = fits(types.len()) && self.can_end(&types, draft.depth + 1);
            lawful.then(|| Draft::new(types, draft.depth + 1))
        };
        symbols.iter().map(clause).collect()
    }

    /// A switch on some producer.
    pub(super) fn some_switch(&mut self, draft: &mut Draft) -> Outcome {
        let is_producer = |one: &&Type| matches!(one, Type::Prd(_));
        let producers: Vec<Type> = draft.types.iter().filter(is_producer).copied().collect();
        match self.random.pick(&producers) {
            Some(Type::Prd(signature)) => self.switch_on(draft, usize::from(signature)),
            _ => Outcome::Nothing,
        }
    }

    /// Brings a producer of the signature to the end and switches on it.
    fn switch_on(&mut self, draft: &mut Draft, signature: usize) -> Outcome {
        let symbols = &self.signatures[signature].symbols;
        let parameters = symbols.iter().map(Vec::len).max().unwrap_or(0);
        let most_kept = (MOST_WIDTH - parameters).min(MOST_WIDTH - 1);
        let producer = Type::Prd(signature as u8);
        let Some(order) = self.order_ending_in(draft, &[producer], most_kept) else {
            return Outcome::Nothing;
        };
        let rest = types_after(draft, &order[..order.len() - 1]);
        let start = |parameters: &Vec<Type>| [rest.as_slice(), parameters].concat();
        let Some(drafts) = self.drafts(draft, signature, start) else {
            return Outcome::Nothing;
        };
        if !self.pay_for_end(cost(draft, &order) + 3 + drafts.len() * BYTES_OF_CLAUSE) {
            return Outcome::Nothing;
        }
        apply(draft, order);
        let clauses = in_symbol_order(self.clauses(drafts, self.bytes_left));
        Outcome::Ended(Last::Switch { signature: signature as u8, clauses })
    }
}
