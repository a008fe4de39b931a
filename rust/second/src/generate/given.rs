//! Loops that are known to do something, written as figure 3's terms: made-up statements alone
//! would rarely build a list and fold it again.

use super::shape::Given;
use crate::assemble::assemble;
use crate::random::Random;
use crate::terms::{Arithmetic, Label, Program, Signature, Statement, Type};

/// A list of integers: nil, cons.
const LIST: u8 = 0;
const NIL: u8 = 0;
const CONS: u8 = 1;
/// What takes an integer and never comes back: ret.
const CONT: u8 = 1;
const RET: u8 = 0;

/// The part of a program that is given.
pub(super) struct GivenPart {
    /// Its signatures and labels; without labels where nothing is given.
    pub(super) program: Program,
    /// The first of its labels. Where it is 1, label 0 is still to be made.
    pub(super) first_label: usize,
}

impl GivenPart {
    /// Bytes of an image that has this part alone.
    pub(super) fn bytes(&self) -> usize {
        assemble(&self.program).expect("the given loops are short").len()
    }
}

/// One of the given parts.
pub(super) fn part(given: Given, random: &mut Random) -> GivenPart {
    let first_label = if given == Given::Nothing { 1 } else { random.below(2) };
    let mut writer = Loops { random, first: first_label as u8 };
    let labels = match given {
        Given::Nothing => Vec::new(),
        Given::Loops => writer.one_loop(),
        Given::Fills => writer.one_fill(),
    };
    let signatures = if labels.is_empty() { Vec::new() } else { signatures() };
    GivenPart { program: Program { signatures, labels }, first_label }
}

fn signatures() -> Vec<Signature> {
    vec![
        Signature { symbols: vec![vec![], vec![Type::Ext, Type::Prd(LIST)]] },
        Signature { symbols: vec![vec![Type::Ext]] },
    ]
}

struct Loops<'r> {
    random: &'r mut Random,
    /// The label of the first of the loop's labels.
    first: u8,
}

impl Loops<'_> {
    fn one_loop(&mut self) -> Vec<Label> {
        match self.random.below(6) {
            0 => self.countdown(),
            1 => {
                let length = self.small();
                self.fold(length)
            }
            2 => {
                let length = self.small();
                self.unwind(length)
            }
            3 | 4 => self.product(),
            _ => self.spin(),
        }
    }

    fn one_fill(&mut self) -> Vec<Label> {
        match self.random.below(5) {
            0 => {
                let length = self.random.between(100, 3_000) as u64;
                self.fold(length)
            }
            1 => {
                let length = self.random.between(100, 3_000) as u64;
                self.unwind(length)
            }
            2 => self.cons_for_ever(),
            3 => self.capture_for_ever(),
            _ => self.capture_many_for_ever(),
        }
    }

    fn label(&self, place: u8) -> u8 {
        self.first + place
    }

    fn small(&mut self) -> u64 {
        self.random.below(40) as u64
    }

    fn operation(&mut self) -> Arithmetic {
        const ALL: [Arithmetic; 3] = [Arithmetic::Add, Arithmetic::Sub, Arithmetic::Mul];
        ALL[self.random.below(3)]
    }

    /// Counts down and computes something on the way.
    fn countdown(&mut self) -> Vec<Label> {
        let again = self.label(1);
        let start = Statement::lit(
            self.small(),
            Statement::lit(self.random.integer(), Statement::jump(again)),
        );
        // count, result, operand, new result, one, count less one
        let next = Statement::substitute(&[5, 3], Statement::jump(again));
        let next = Statement::compute(Arithmetic::Sub, 0, 4, next);
        let next = Statement::compute(self.operation(), 1, 2, Statement::lit(1, next));
        let next = Statement::lit(self.random.integer(), next);
        let body = Statement::ifz(0, Statement::exit(1), next);
        vec![labelled(&[], start), labelled(&[Type::Ext, Type::Ext], body)]
    }

    /// Builds a list of so many integers, then folds it.
    fn fold(&mut self, length: u64) -> Vec<Label> {
        let (build, fold) = (self.label(1), self.label(2));
        let list = Type::Prd(LIST);
        let start = Statement::let_(LIST, NIL, Statement::lit(length, Statement::jump(build)));
        // list, count, one, count less one
        let more = Statement::substitute(&[1, 0], Statement::jump(build));
        let more = Statement::substitute(&[3, 1, 0], Statement::let_(LIST, CONS, more));
        let more = Statement::lit(1, Statement::compute(Arithmetic::Sub, 1, 2, more));
        let built = Statement::substitute(&[2, 0], Statement::jump(fold));
        let built = Statement::lit(self.random.integer(), built);
        // result, head, tail, new result
        let folded = Statement::substitute(&[3, 2], Statement::jump(fold));
        let folded = Statement::compute(self.operation(), 0, 1, folded);
        vec![
            labelled(&[], start),
            labelled(&[list, Type::Ext], Statement::ifz(1, built, more)),
            labelled(&[Type::Ext, list], Statement::switch(LIST, vec![Statement::exit(0), folded])),
        ]
    }

    /// Wraps consumers around one another so many times, then invokes the outermost.
    fn unwind(&mut self, length: u64) -> Vec<Label> {
        let build = self.label(1);
        let start = Statement::lit(length, Statement::jump(build));
        let start = Statement::new(CONT, 0, vec![Statement::exit(0)], start);
        // result, captured consumer, captured count, new result
        let clause = Statement::substitute(&[3, 1], Statement::invoke(RET));
        let clause = Statement::compute(self.operation(), 0, 2, clause);
        // consumer, count, one, count less one
        let more = Statement::substitute(&[1, 0], Statement::jump(build));
        let more = Statement::new(CONT, 2, vec![clause], more);
        let more = Statement::substitute(&[3, 0, 1], more);
        let more = Statement::lit(1, Statement::compute(Arithmetic::Sub, 1, 2, more));
        let built = Statement::substitute(&[2, 0], Statement::invoke(RET));
        let built = Statement::lit(self.random.integer(), built);
        let list = [Type::Cns(CONT), Type::Ext];
        vec![labelled(&[], start), labelled(&list, Statement::ifz(1, built, more))]
    }

    /// The paper's product of a list with early return at a zero.
    fn product(&mut self) -> Vec<Label> {
        let (mult, again) = (self.label(1), self.label(2));
        let (list, cont) = (Type::Prd(LIST), Type::Cns(CONT));
        let start = Statement::substitute(&[1, 0], Statement::jump(mult));
        let start = Statement::new(CONT, 0, vec![Statement::exit(0)], start);
        let start = (0..self.random.below(8)).fold(start, |start, _| {
            let cons = Statement::substitute(&[1, 0], Statement::let_(LIST, CONS, start));
            Statement::lit(self.random.integer(), cons)
        });
        let start = Statement::let_(LIST, NIL, start);
        let share = Statement::substitute(&[0, 0, 1], Statement::jump(again));
        let body = Statement::switch(LIST, vec![product_of_nil(), product_of_cons(again)]);
        vec![
            labelled(&[], start),
            labelled(&[cont, list], share),
            labelled(&[cont, cont, list], body),
        ]
    }

    /// Jumps to itself until the fuel is spent.
    fn spin(&mut self) -> Vec<Label> {
        let itself = self.label(0);
        let body = match self.random.below(3) {
            0 => Statement::jump(itself),
            1 => Statement::substitute(&[], Statement::jump(itself)),
            _ => {
                let forget = Statement::substitute(&[], Statement::jump(itself));
                Statement::lit(self.random.integer(), forget)
            }
        };
        vec![labelled(&[], body)]
    }

    /// A list that grows until the room is spent.
    fn cons_for_ever(&mut self) -> Vec<Label> {
        let again = self.label(1);
        let start = Statement::let_(LIST, NIL, Statement::jump(again));
        let cons = Statement::let_(LIST, CONS, Statement::jump(again));
        let body = Statement::lit(self.random.integer(), Statement::substitute(&[1, 0], cons));
        vec![labelled(&[], start), labelled(&[Type::Prd(LIST)], body)]
    }

    /// A consumer around a consumer until the room is spent.
    fn capture_for_ever(&mut self) -> Vec<Label> {
        let again = self.label(1);
        let start = Statement::new(CONT, 0, vec![Statement::exit(0)], Statement::jump(again));
        let body = Statement::new(CONT, 1, vec![Statement::invoke(RET)], Statement::jump(again));
        vec![labelled(&[], start), labelled(&[Type::Cns(CONT)], body)]
    }

    /// Blocks of up to 31 captures until the room is spent.
    fn capture_many_for_ever(&mut self) -> Vec<Label> {
        let again = self.label(1);
        let captures = self.random.between(2, 31);
        let start = Statement::new(CONT, 0, vec![Statement::exit(0)], Statement::jump(again));
        let order: Vec<u8> = (0..captures).map(|_| self.random.below(2) as u8).collect();
        let clause = Statement::exit(0);
        let next = Statement::new(CONT, captures as u8, vec![clause], Statement::jump(again));
        let body = Statement::lit(self.random.integer(), Statement::substitute(&order, next));
        vec![labelled(&[], start), labelled(&[Type::Cns(CONT)], body)]
    }
}

/// In the paper's loop: nil. The environment is the two consumers.
fn product_of_nil() -> Statement {
    Statement::lit(1, Statement::substitute(&[2, 1], Statement::invoke(RET)))
}

/// In the paper's loop: cons. The environment is the two consumers, head and tail.
fn product_of_cons(again: u8) -> Statement {
    let early = Statement::lit(0, Statement::substitute(&[4, 0], Statement::invoke(RET)));
    // result, captured consumer, captured head, product
    let clause = Statement::substitute(&[3, 1], Statement::invoke(RET));
    let clause = Statement::compute(Arithmetic::Mul, 2, 0, clause);
    let next = Statement::substitute(&[0, 2, 1], Statement::jump(again));
    let next = Statement::new(CONT, 2, vec![clause], next);
    let next = Statement::substitute(&[0, 3, 1, 2], next);
    Statement::ifz(2, early, next)
}

fn labelled(parameters: &[Type], body: Statement) -> Label {
    Label { parameters: parameters.to_vec(), body }
}
