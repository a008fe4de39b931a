//! Statements that are well typed because they are written for the environment they stand in:
//! document 01's "Typing by position", read as instructions.
//!
//! Bytes are kept like money. Every statement that is begun has [`BYTES_TO_END`] put by, with
//! which it can surely be ended; all else is paid from what is left.

mod blocks;
mod ends;
mod integers;
mod orders;

use super::shape::{Shape, Wish};
use crate::layout::{MOST_DEPTH, MOST_WIDTH};
use crate::random::Random;
use crate::terms::{Last, Signature, Statement, Straight, Type};

/// Bytes with which any statement can be ended: `substitute 0`, `lit`, a clause length, `exit`.
pub(super) const BYTES_TO_END: usize = 2 + 10 + 2 + 3;

/// Wishes in a row that may come to nothing before a statement is ended.
const PATIENCE: usize = 12;

/// A statement that is being written.
struct Draft {
    /// The environment that the next statement stands in.
    types: Vec<Type>,
    depth: usize,
    straight: Vec<Straight>,
}

impl Draft {
    fn new(types: Vec<Type>, depth: usize) -> Self {
        Self { types, depth, straight: Vec::new() }
    }

    fn width(&self) -> usize {
        self.types.len()
    }
}

/// What has come of a wish.
enum Outcome {
    /// It could not be had here; nothing has changed.
    Nothing,
    /// The draft is longer.
    Longer,
    /// The draft ends with this.
    Ended(Last),
}

/// Writes statements under one head.
pub(super) struct Writer<'w> {
    shape: &'w Shape,
    random: &'w mut Random,
    signatures: &'w [Signature],
    lists: &'w [Vec<Type>],
    /// A label without parameters: where it is known, any statement can be ended at any depth.
    nullary: Option<u8>,
    bodies_to_come: usize,
    bytes_left: usize,
}

impl<'w> Writer<'w> {
    pub(super) fn new(
        shape: &'w Shape,
        random: &'w mut Random,
        signatures: &'w [Signature],
        lists: &'w [Vec<Type>],
        bytes_left: usize,
    ) -> Self {
        let nullary = lists.iter().position(Vec::is_empty).map(|label| label as u8);
        let bodies_to_come = lists.len();
        Self { shape, random, signatures, lists, nullary, bodies_to_come, bytes_left }
    }

    /// A body for the label.
    pub(super) fn body(&mut self, label: usize) -> Statement {
        let fair = self.bytes_left / self.bodies_to_come.max(1);
        // The entry's body is the one that is sure to be run, so it may be longer.
        let fair = if label == 0 { (3 * fair).min(self.bytes_left) } else { fair };
        self.bodies_to_come -= 1;
        let share = fair.min(self.shape.body_bytes);
        let types = self.lists[label].clone();
        self.within(share, |writer| writer.statement(Draft::new(types, 0)))
    }

    /// Writes a statement to its end.
    fn statement(&mut self, mut draft: Draft) -> Statement {
        let mut missed = 0;
        while missed < PATIENCE {
            let Some(wish) = self.random.weighted(&self.shape.wishes) else {
                break;
            };
            match self.grant(wish, &mut draft) {
                Outcome::Ended(last) => return Statement { straight: draft.straight, last },
                Outcome::Longer => missed = 0,
                Outcome::Nothing => missed += 1,
            }
        }
        self.end(draft)
    }

    fn grant(&mut self, wish: Wish, draft: &mut Draft) -> Outcome {
        match wish {
            Wish::Substitute => self.substitute(draft),
            Wish::Let => self.some_let(draft),
            Wish::New => self.some_new(draft),
            Wish::Switch => self.some_switch(draft),
            Wish::Invoke => self.some_invoke(draft),
            Wish::Jump => self.some_jump(draft),
            Wish::CountedJump => self.counted_jump(draft),
            Wish::Lit => self.lit(draft),
            Wish::Compute => self.compute(draft),
            Wish::Ifz => self.ifz(draft),
            Wish::Less => self.less(draft),
            Wish::Exit => self.exit(draft),
            Wish::Supply => self.supply(draft),
        }
    }

    /// Makes an entry of a type that some label or symbol asks for and the environment lacks.
    fn supply(&mut self, draft: &mut Draft) -> Outcome {
        let mut wanted = self.wanted_list();
        // To make what is lacking, something else may be lacking.
        for _ in 0..4 {
            let lacking = wanted.iter().copied().find(|one| !draft.types.contains(one));
            match lacking {
                None => return Outcome::Nothing,
                Some(Type::Ext) => return self.lit(draft),
                Some(Type::Cns(signature)) => return self.new_of(draft, usize::from(signature)),
                Some(Type::Prd(signature)) => {
                    let signature = usize::from(signature);
                    let symbols = self.signatures[signature].symbols.len();
                    if symbols == 0 {
                        return Outcome::Nothing;
                    }
                    let symbol = self.random.below(symbols);
                    wanted = self.signatures[signature].symbols[symbol].clone();
                    if wanted.iter().all(|one| draft.types.contains(one)) {
                        return self.let_of(draft, signature, symbol);
                    }
                }
            }
        }
        Outcome::Nothing
    }

    /// The list of some label or some symbol.
    fn wanted_list(&mut self) -> Vec<Type> {
        if self.random.one_in(2) {
            return self.lists[self.random.below(self.lists.len())].clone();
        }
        match self.some_symbol() {
            Some((signature, symbol)) => self.signatures[signature].symbols[symbol].clone(),
            None => Vec::new(),
        }
    }

    fn some_signature(&mut self) -> Option<usize> {
        (!self.signatures.is_empty()).then(|| self.random.below(self.signatures.len()))
    }

    fn some_symbol(&mut self) -> Option<(usize, usize)> {
        let signature = self.some_signature()?;
        let symbols = self.signatures[signature].symbols.len();
        (symbols > 0).then(|| (signature, self.random.below(symbols)))
    }

    /// Whether a statement at this depth in this environment can surely be ended. An integer can
    /// be named by `exit`; otherwise a clause or a label without parameters is needed.
    fn can_end(&self, types: &[Type], depth: usize) -> bool {
        depth < MOST_DEPTH || self.nullary.is_some() || types.contains(&Type::Ext)
    }

    /// Whether a clause may be opened here for its own sake.
    fn may_open(&self, draft: &Draft) -> bool {
        draft.depth < self.shape.depth.min(MOST_DEPTH)
    }

    /// Writes the statements of clauses, which together may use `pool` bytes of what is left.
    fn clauses(&mut self, drafts: Vec<Draft>, mut pool: usize) -> Vec<Statement> {
        let count = drafts.len();
        let favourite = self.random.below(count.max(1));
        let one_gets_most = self.shape.nest || self.random.one_in(3);
        let mut statements = Vec::with_capacity(count);
        for (place, draft) in drafts.into_iter().enumerate() {
            let share = match one_gets_most {
                true if place == favourite => pool,
                true => (pool / 8).min(16),
                false => pool / (count - place),
            };
            let before = self.bytes_left;
            let statement = self.within(share, |writer| writer.statement(draft));
            statements.push(statement);
            pool = (pool + self.bytes_left).saturating_sub(before);
        }
        statements
    }

    /// Lets `write` use only so many of the bytes left.
    fn within<T>(&mut self, share: usize, write: impl FnOnce(&mut Self) -> T) -> T {
        let held_back = self.bytes_left - share;
        self.bytes_left = share;
        let written = write(self);
        self.bytes_left += held_back;
        written
    }

    /// Pays for something after which the draft still has to be ended.
    fn pay(&mut self, bytes: usize) -> bool {
        let enough = self.bytes_left >= bytes;
        if enough {
            self.bytes_left -= bytes;
        }
        enough
    }

    /// Pays for an ending, for which the draft's own reserve may be used.
    fn pay_for_end(&mut self, bytes: usize) -> bool {
        let have = self.bytes_left + BYTES_TO_END;
        let enough = have >= bytes;
        if enough {
            self.bytes_left = have - bytes;
        }
        enough
    }
}

/// Whether an environment of this width is one.
fn fits(width: usize) -> bool {
    width <= MOST_WIDTH
}
