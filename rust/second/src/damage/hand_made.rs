//! Images made by hand, byte by byte, for every row of document 01's "Refusal numbers" at each of
//! its places. Their verdicts were worked out on paper, not by any code here.

use crate::answer::Verdict;
use crate::layout::{MOST_BYTES, MOST_DEPTH, START, VERSION};

use super::bytes::with_length;

/// An image made by hand.
#[derive(Clone, PartialEq, Eq, Debug)]
pub struct HandMade {
    /// What is wrong with it.
    pub name: String,
    /// The bytes.
    pub image: Vec<u8>,
    /// The one right verdict.
    pub verdict: Verdict,
}

/// All images made by hand; each of the numbers 1 to 11 occurs.
pub fn hand_made() -> Vec<HandMade> {
    let mut book = Book::default();
    book.starts();
    book.ends_in_head();
    book.ends_in_straight_statements();
    book.ends_in_extern();
    book.ends_in_clauses();
    book.ends_of_inner_regions();
    book.counts();
    book.widths_of_straight_statements();
    book.widths_of_clauses();
    book.depths();
    book.unknown();
    book.unbound_in_head();
    book.unbound_in_statements();
    book.premises_of_head_and_jump();
    book.premises_of_arguments();
    book.premises_of_values();
    book.clause_counts_and_symbols();
    book.bytes_left_in_extern();
    book.bytes_left_elsewhere();
    book.cases
}

/// No signature; label 0 has no parameter.
const NONE: &[u8] = &[0, 1, 0];
/// No signature; label 0 has one integer.
const ONE: &[u8] = &[0, 1, 1, 2, 0];
/// Signature 0 with symbols m0() and m1(ext); label 0 has two integers. As in image B.
const PAIR: &[u8] = &[1, 2, 0, 1, 2, 0, 1, 2, 2, 0, 2, 0];
/// Signature 0 without symbols; label 0 has no parameter.
const EMPTY: &[u8] = &[1, 0, 1, 0];
/// Signatures 0 and 1, each with m0(); label 0 has no parameter.
const TWINS: &[u8] = &[2, 1, 0, 1, 0, 1, 0];

/// `extern exit 0`
const EXIT: &[u8] = &[2, 6, 0];
/// `let 0 0`
const LET: &[u8] = &[3, 0, 0];
/// Under [`PAIR`]: `new 0` that captures one integer; 16 bytes, leaves an integer and a consumer.
const NEW: &[u8] = &[4, 0, 1, 2, 0, 0, 3, 2, 6, 0, 1, 0, 3, 2, 6, 0];
/// `extern lit 0`, without its clause; 10 bytes.
const LIT: &[u8] = &[2, 0, 0, 0, 0, 0, 0, 0, 0, 0];

/// Signature 0 with m0(), m1(ext), m2(ext, ext); label 0 has so many integers.
fn wide(integers: u8) -> Vec<u8> {
    let mut head = vec![1, 3, 0, 1, 2, 0, 2, 2, 0, 2, 0, 1, integers];
    head.extend([2, 0].repeat(usize::from(integers)));
    head
}

/// A length and what it counts.
fn region(bytes: &[u8]) -> Vec<u8> {
    join(&[&(bytes.len() as u16).to_be_bytes(), bytes])
}

/// A clause with its symbol.
fn clause(symbol: u8, bytes: &[u8]) -> Vec<u8> {
    join(&[&[symbol], &region(bytes)])
}

fn join(parts: &[&[u8]]) -> Vec<u8> {
    parts.concat()
}

/// `extern ifz 0` around `inside`, so many times; each puts 5 bytes before it.
fn nested(times: usize, inside: &[u8]) -> Vec<u8> {
    (0..times)
        .fold(inside.to_vec(), |inside, _| join(&[&[2, 4, 0], &region(&inside), &region(EXIT)]))
}

#[derive(Default)]
struct Book {
    cases: Vec<HandMade>,
}

impl Book {
    fn whole(&mut self, name: &str, image: &[u8], number: u8, offset: usize) {
        let verdict = Verdict::new(number, offset);
        self.cases.push(HandMade { name: name.to_string(), image: image.to_vec(), verdict });
    }

    /// An image with a good start; `place` counts from the signature count.
    fn after_start(&mut self, name: &str, bytes: &[u8], number: u8, place: usize) {
        let image = with_length(join(&[&[VERSION, 0, 0], bytes]));
        self.whole(name, &image, number, START + place);
    }

    /// An image with a good head and one body of the right length; `place` counts from the body's
    /// first byte.
    fn body(&mut self, name: &str, head: &[u8], body: &[u8], number: u8, place: usize) {
        let bytes = join(&[head, &region(body)]);
        self.after_start(name, &bytes, number, head.len() + 2 + place);
    }

    /// 1 and 2.
    fn starts(&mut self) {
        let good = join(&[&[VERSION, 0, 0], NONE, &region(&[0, 0])]);
        let good = with_length(good);
        let mut short = good.clone();
        short[2] -= 1;
        let mut long = good.clone();
        long[1] = 1;
        self.whole("no byte", &[], 1, 0);
        self.whole("one byte", &[1], 1, 0);
        self.whole("two bytes", &[1, 0], 1, 0);
        self.whole("two bytes of another version", &[9, 9], 1, 0);
        self.whole("one byte too many", &with_length(vec![1; MOST_BYTES + 1]), 1, 0);
        self.whole("twice too many", &vec![0; 2 * MOST_BYTES], 1, 0);
        self.whole("length field too small", &short, 1, 1);
        self.whole("length field too large", &long, 1, 1);
        self.whole("length field that counts itself", &[1, 0, 2], 1, 1);
        self.whole("length field that counts all", &[1, 0, 3], 1, 1);
        self.whole("version 0", &[0, 0, 0], 2, 0);
        self.whole("version 2 and wrong length", &[2, 9, 9], 2, 0);
        self.whole("version 255", &[255, 0, 0], 2, 0);
    }

    /// 3 in signatures, labels and body lengths.
    fn ends_in_head(&mut self) {
        self.after_start("no signature count", &[], 3, 0);
        self.after_start("no symbol count", &[1], 3, 1);
        self.after_start("no second symbol count", &[2, 0], 3, 2);
        self.after_start("no parameter count", &[1, 1], 3, 2);
        self.after_start("no second parameter count", &[1, 2, 0], 3, 3);
        self.after_start("no kind", &[1, 1, 1], 3, 3);
        self.after_start("no number of prd", &[1, 1, 1, 0], 3, 4);
        self.after_start("no number of cns", &[1, 1, 1, 1], 3, 4);
        self.after_start("no number of ext", &[1, 1, 1, 2], 3, 4);
        self.after_start("no second kind", &[1, 1, 2, 2, 0], 3, 5);
        self.after_start("no label count", &[0], 3, 1);
        self.after_start("no label parameter count", &[0, 1], 3, 2);
        self.after_start("no second label parameter count", &[0, 2, 0], 3, 3);
        self.after_start("no label kind", &[0, 1, 1], 3, 3);
        self.after_start("no label number", &[0, 1, 1, 2], 3, 4);
        self.after_start("no label number, though prd", &[1, 0, 1, 1, 0], 3, 5);
        self.after_start("no body length", &[0, 1, 0], 3, 3);
        self.after_start("half a body length", &[0, 1, 0, 0], 3, 3);
        self.after_start("body passes the image", &[0, 1, 0, 0, 3, 0, 0], 3, 3);
        self.after_start("no second body length", &[0, 2, 0, 0, 0, 2, 0, 0], 3, 8);
        self.after_start("half a second body length", &[0, 2, 0, 0, 0, 2, 0, 0, 0], 3, 8);
        let passes = &[0, 2, 0, 0, 0, 2, 0, 0, 0, 3, 0, 0];
        self.after_start("second body passes the image", passes, 3, 8);
    }

    /// 3 in statements without clauses.
    fn ends_in_straight_statements(&mut self) {
        self.body("no code", NONE, &[], 3, 0);
        self.body("jump: no label", NONE, &[0], 3, 1);
        self.body("substitute: no count", NONE, &[1], 3, 1);
        self.body("substitute: no position", ONE, &[1, 1], 3, 2);
        self.body("substitute: no second position", ONE, &[1, 2, 0], 3, 3);
        self.body("substitute: nothing follows", NONE, &[1, 0], 3, 2);
        self.body("let: no signature", PAIR, &[3], 3, 1);
        self.body("let: no symbol", PAIR, &[3, 0], 3, 2);
        self.body("let: nothing follows", PAIR, LET, 3, 3);
        self.body("new: no signature", PAIR, &[4], 3, 1);
        self.body("new: no capture count", PAIR, &[4, 0], 3, 2);
        self.body("new: no clause count", PAIR, &[4, 0, 0], 3, 3);
        self.body("new: nothing follows", PAIR, NEW, 3, NEW.len());
        self.body("new without clauses: nothing follows", EMPTY, &[4, 0, 0, 0], 3, 4);
        self.body("switch: no signature", PAIR, &join(&[LET, &[5]]), 3, 4);
        self.body("switch: no clause count", PAIR, &join(&[LET, &[5, 0]]), 3, 5);
        self.body("invoke: no symbol", PAIR, &join(&[NEW, &[6]]), 3, NEW.len() + 1);
    }

    /// 3 in externs.
    fn ends_in_extern(&mut self) {
        self.body("extern: no operation", NONE, &[2], 3, 1);
        self.body("lit: no literal", NONE, &[2, 0], 3, 2);
        self.body("lit: one byte of literal", NONE, &LIT[..3], 3, 2);
        self.body("lit: seven bytes of literal", NONE, &LIT[..9], 3, 2);
        self.body("lit: no length", NONE, LIT, 3, 10);
        self.body("lit: half a length", NONE, &join(&[LIT, &[0]]), 3, 10);
        self.body("lit: clause passes its region", NONE, &join(&[LIT, &[0, 1]]), 3, 10);
        self.body("lit: no statement", NONE, &join(&[LIT, &[0, 0]]), 3, 12);
        for operation in 1..=3 {
            self.body("add, sub, mul: no position", ONE, &[2, operation], 3, 2);
            self.body("add, sub, mul: no second position", ONE, &[2, operation, 0], 3, 3);
            self.body("add, sub, mul: no length", ONE, &[2, operation, 0, 0], 3, 4);
        }
        self.body("ifz: no position", ONE, &[2, 4], 3, 2);
        self.body("ifz: no first length", ONE, &[2, 4, 0], 3, 3);
        self.body("ifz: no second length", ONE, &[2, 4, 0, 0, 3, 2, 6, 0], 3, 8);
        self.body("ifz: half a second length", ONE, &[2, 4, 0, 0, 3, 2, 6, 0, 0], 3, 8);
        let passes = &[2, 4, 0, 0, 3, 2, 6, 0, 0, 4, 2, 6, 0];
        self.body("ifz: second clause passes its region", ONE, passes, 3, 8);
        self.body("less: no position", ONE, &[2, 5], 3, 2);
        self.body("less: no second position", ONE, &[2, 5, 0], 3, 3);
        self.body("less: no first length", ONE, &[2, 5, 0, 0], 3, 4);
        self.body("less: no second length", ONE, &[2, 5, 0, 0, 0, 3, 2, 6, 0], 3, 9);
        self.body("exit: no position", ONE, &[2, 6], 3, 2);
    }

    /// 3 in clauses of new and switch.
    fn ends_in_clauses(&mut self) {
        self.body("new: no clause symbol", PAIR, &[4, 0, 0, 2], 3, 4);
        self.body("new: no clause length", PAIR, &[4, 0, 0, 2, 0], 3, 5);
        self.body("new: half a clause length", PAIR, &[4, 0, 0, 2, 0, 0], 3, 5);
        self.body("new: clause passes its region", PAIR, &[4, 0, 0, 2, 0, 0, 1], 3, 5);
        self.body("new: no statement in clause", PAIR, &[4, 0, 0, 2, 0, 0, 0], 3, 7);
        self.body("new: no second clause symbol", PAIR, &NEW[..10], 3, 10);
        self.body("new: no second clause length", PAIR, &NEW[..11], 3, 11);
        let switch = |bytes: &[u8]| join(&[LET, &[5, 0, 2], bytes]);
        self.body("switch: no clause symbol", PAIR, &switch(&[]), 3, 6);
        self.body("switch: no clause length", PAIR, &switch(&[0]), 3, 7);
        self.body("switch: half a clause length", PAIR, &switch(&[0, 0]), 3, 7);
        self.body("switch: clause passes its region", PAIR, &switch(&[0, 0, 1]), 3, 7);
        self.body("switch: no statement in clause", PAIR, &switch(&[0, 0, 0]), 3, 9);
        let one = clause(0, EXIT);
        self.body("switch: no second clause symbol", PAIR, &switch(&one), 3, 12);
        let one_and_symbol = join(&[&one, &[1]]);
        self.body("switch: no second clause length", PAIR, &switch(&one_and_symbol), 3, 13);
    }

    /// 3 where the image goes on but the region does not.
    fn ends_of_inner_regions(&mut self) {
        let exit = &[2, 4, 0, 0, 2, 2, 6, 0, 3, 2, 6, 0];
        self.body("exit's position is outside the clause", ONE, exit, 3, 7);
        let code = &[2, 4, 0, 0, 0, 0, 3, 2, 6, 0];
        self.body("the clause is empty", ONE, code, 3, 5);
        let inner = join(&[&[2, 4, 0], &region(&[2, 4, 0, 0, 4, 2, 6]), &region(EXIT)]);
        self.body("a clause passes the clause around it", ONE, &inner, 3, 8);
        let length = join(&[&[2, 4, 0], &region(&[2, 4, 0, 0]), &region(EXIT)]);
        self.body("a length passes the clause around it", ONE, &length, 3, 8);
        let literal = join(&[&[2, 4, 0], &region(&LIT[..9]), &region(EXIT)]);
        self.body("a literal passes the clause around it", ONE, &literal, 3, 7);
        let bodies = &[0, 2, 0, 0, 0, 1, 0, 0, 2, 0, 0];
        self.after_start("a label is outside the body", bodies, 3, 7);
    }

    /// 4.
    fn counts(&mut self) {
        self.after_start("65 signatures", &[65], 4, 0);
        self.after_start("255 signatures", &[255], 4, 0);
        self.after_start("33 symbols", &[1, 33], 4, 1);
        self.after_start("33 symbols of the second signature", &[2, 0, 33], 4, 2);
        self.after_start("17 parameters", &[1, 1, 17], 4, 2);
        self.after_start("17 parameters of the second symbol", &[1, 2, 0, 17], 4, 3);
        self.after_start("no label", &[0, 0], 4, 1);
        self.after_start("65 labels", &[0, 65], 4, 1);
        self.after_start("33 parameters of label 0", &[0, 1, 33], 4, 2);
        self.after_start("33 parameters of label 1", &[0, 2, 0, 33], 4, 3);
        self.body("substitute of 33", ONE, &[1, 33], 4, 1);
        self.body("substitute of 255 after another", ONE, &[1, 0, 1, 255], 4, 3);
        let inside = join(&[&[2, 4, 0], &region(&[1, 33]), &region(EXIT)]);
        self.body("substitute of 33 in a clause", ONE, &inside, 4, 6);
    }

    /// 5 at the code of let and new.
    fn widths_of_straight_statements(&mut self) {
        let full = wide(32);
        self.body("let without parameters at 32", &full, &join(&[LET, EXIT]), 5, 0);
        self.body("let without parameters at 32, nothing follows", &full, LET, 5, 0);
        let repeat = join(&[&[1, 32], &[0; 32], LET]);
        self.body("let without parameters after substitute of 32", &wide(1), &repeat, 5, 34);
        let literal = join(&[LIT, &region(EXIT)]);
        let clauses = join(&[&clause(0, &literal), &clause(1, EXIT), &clause(2, EXIT)]);
        let new = join(&[&[4, 0, 0, 3], &clauses]);
        self.body("new without captures at 32", &full, &join(&[&new, EXIT]), 5, 0);
        self.body("new without captures at 32, nothing follows", &full, &new, 5, 0);
        let inside = join(&[&[2, 4, 0], &region(&join(&[LET, EXIT])), &region(EXIT)]);
        self.body("let without parameters at 32 in a clause", &full, &inside, 5, 5);
    }

    /// 5 at clauses.
    fn widths_of_clauses(&mut self) {
        let full = wide(32);
        self.body("lit at 32", &full, &join(&[LIT, &region(EXIT)]), 5, 10);
        self.body("lit at 32 without a length", &full, LIT, 5, 10);
        for operation in 1..=3 {
            let compute = [2, operation, 0, 0];
            let whole = join(&[&compute, &region(EXIT)]);
            self.body("add, sub, mul at 32", &full, &whole, 5, 4);
            self.body("add, sub, mul at 32 without a length", &full, &compute, 5, 4);
        }
        let two = join(&[&clause(0, EXIT), &clause(1, EXIT)]);
        let switch = join(&[&[3, 0, 1, 5, 0, 3], &two, &[2]]);
        self.body("switch clause of two parameters at 32", &full, &switch, 5, 18);
        let switch = join(&[LET, &[5, 0, 3], &two, &clause(2, EXIT), &[0]]);
        self.body("switch clause of two parameters at 31 and 1", &wide(31), &switch, 5, 18);
        let new = join(&[&[4, 0, 31, 3], &two, &clause(2, EXIT)]);
        self.body("new clause of 31 captures and 2", &full, &new, 5, 16);
        let new = join(&[&[4, 0, 32, 3], &clause(0, EXIT), &clause(1, EXIT)]);
        self.body("new clause of 32 captures and 1", &full, &new, 5, 10);
    }

    /// 10 at each kind of clause.
    fn depths(&mut self) {
        let deepest = 5 * MOST_DEPTH;
        let ifz = join(&[&[2, 4, 0], &region(EXIT), &region(EXIT)]);
        self.body("ifz at 48", ONE, &nested(48, &ifz), 10, deepest + 3);
        self.body("ifz at 48 without a length", ONE, &nested(48, &ifz[..3]), 10, deepest + 3);
        let less = join(&[&[2, 5, 0, 0], &region(EXIT), &region(EXIT)]);
        self.body("less at 48", ONE, &nested(48, &less), 10, deepest + 4);
        let lit = join(&[LIT, &region(EXIT)]);
        self.body("lit at 48", ONE, &nested(48, &lit), 10, deepest + 10);
        // 5 comes first.
        self.body("lit at 48, width 32", &wide(32), &nested(48, &lit), 5, deepest + 10);
        for operation in 1..=3 {
            let compute = join(&[&[2, operation, 0, 0], &region(EXIT)]);
            self.body("add, sub, mul at 48", ONE, &nested(48, &compute), 10, deepest + 4);
        }
        let switch = join(&[LET, &[5, 0, 2], &clause(0, EXIT), &clause(1, EXIT)]);
        self.body("switch at 48", PAIR, &nested(48, &switch), 10, deepest + 6);
        let new = join(&[NEW, EXIT]);
        self.body("new at 48", PAIR, &nested(48, &new), 10, deepest + 4);
        // 3 and 9 of the symbol byte come first.
        self.body("switch at 48 without a symbol", PAIR, &nested(48, &switch[..6]), 3, deepest + 6);
        let switch = join(&[&switch[..6], &clause(1, EXIT)]);
        self.body("switch at 48, wrong symbol", PAIR, &nested(48, &switch), 9, deepest + 6);
        self.body("new at 48 without a symbol", PAIR, &nested(48, &NEW[..4]), 3, deepest + 4);
        let new = join(&[&NEW[..4], &clause(1, EXIT)]);
        self.body("new at 48, wrong symbol", PAIR, &nested(48, &new), 9, deepest + 4);
        let after = join(&[&[1, 1, 0], &ifz]);
        self.body("ifz after substitute at 48", ONE, &nested(48, &after), 10, deepest + 6);
        self.body("many more than 48", ONE, &nested(200, EXIT), 10, deepest + 3);
    }

    /// 6.
    fn unknown(&mut self) {
        self.after_start("kind 3 without a number", &[1, 1, 1, 3], 6, 3);
        self.after_start("kind 255", &[1, 1, 1, 255, 0], 6, 3);
        self.after_start("ext 1", &[1, 1, 1, 2, 1], 6, 4);
        self.after_start("label of kind 3 without a number", &[0, 1, 1, 3], 6, 3);
        self.after_start("label of ext 9", &[0, 1, 1, 2, 9], 6, 4);
        self.after_start("second type of kind 4", &[0, 1, 2, 2, 0, 4], 6, 5);
        self.body("code 7", NONE, &[7], 6, 0);
        self.body("code 255", NONE, &[255, 0], 6, 0);
        self.body("code 8 after substitute", NONE, &[1, 0, 8], 6, 2);
        self.body("code 7 after let", PAIR, &join(&[LET, &[7]]), 6, 3);
        self.body("code 7 after new", PAIR, &join(&[NEW, &[7]]), 6, NEW.len());
        let inside = join(&[&[2, 4, 0], &region(&[7]), &region(EXIT)]);
        self.body("code 7 in a clause", ONE, &inside, 6, 5);
        self.body("operation 7", NONE, &[2, 7], 6, 1);
        self.body("operation 255", ONE, &[2, 255, 0], 6, 1);
    }

    /// 7 in types.
    fn unbound_in_head(&mut self) {
        self.after_start("prd 1 of one signature", &[1, 1, 1, 0, 1], 7, 4);
        self.after_start("cns 64 of one signature", &[1, 1, 1, 1, 64], 7, 4);
        self.after_start("label 0 of prd 1, though not ext", &[1, 0, 1, 1, 0, 1], 7, 5);
        self.after_start("label 1 of cns 1", &[1, 0, 2, 0, 1, 1, 1], 7, 6);
        self.after_start("prd 0 of no signature", &[0, 1, 1, 0, 0], 7, 4);
    }

    /// 7 in statements.
    fn unbound_in_statements(&mut self) {
        self.body("jump to label 1 of one", NONE, &[0, 1], 7, 1);
        self.body("substitute of position 0 of none", NONE, &[1, 1, 0], 7, 2);
        self.body("substitute of position 1 of one", ONE, &[1, 2, 0, 1], 7, 3);
        self.body("substitute after substitute", ONE, &[1, 0, 1, 1, 0], 7, 4);
        for operation in [1, 2, 3, 5] {
            self.body("first position 1 of one", ONE, &[2, operation, 1, 0], 7, 2);
            self.body("second position 1 of one", ONE, &[2, operation, 0, 1], 7, 3);
        }
        self.body("ifz of position 1 of one", ONE, &[2, 4, 1], 7, 2);
        self.body("exit of position 1 of one", ONE, &[2, 6, 1], 7, 2);
        self.body("exit of position 0 of none", NONE, EXIT, 7, 2);
        self.body("let of signature 1 of one", PAIR, &[3, 1], 7, 1);
        self.body("let of symbol 2 of two", PAIR, &[3, 0, 2], 7, 2);
        self.body("let of symbol 0 of none", EMPTY, &[3, 0, 0], 7, 2);
        self.body("new of signature 1 of one", PAIR, &[4, 1], 7, 1);
        self.body("switch of signature 1 of one, on an integer", PAIR, &[5, 1], 7, 1);
        self.body("switch of signature 0 of none", ONE, &[5, 0], 7, 1);
        self.body("invoke of symbol 2 of two", PAIR, &join(&[NEW, &[6, 2]]), 7, NEW.len() + 1);
        self.body("invoke of symbol 0 of none", EMPTY, &[4, 0, 0, 0, 6, 0], 7, 5);
    }

    /// 8 in label 0's list and in jump.
    fn premises_of_head_and_jump(&mut self) {
        self.after_start("label 0 of prd", &[1, 0, 1, 1, 0, 0], 8, 4);
        self.after_start("label 0 of cns", &[1, 0, 1, 1, 1, 0], 8, 4);
        self.after_start("label 0 of ext and prd", &[1, 0, 1, 2, 2, 0, 0, 0], 8, 6);
        self.body("jump with too few", ONE, &[1, 0, 0, 0], 8, 2);
        self.body("jump with too many", ONE, &[1, 2, 0, 0, 0, 0], 8, 4);
        self.body("jump with another type", PAIR, &join(&[&[1, 1, 0], LET, &[0, 0]]), 8, 6);
        let inside = join(&[LIT, &region(&[0, 0])]);
        self.body("jump from a clause with its integer", NONE, &inside, 8, 12);
    }

    /// 8 at the positions of externs, where the last entry is a producer.
    fn premises_of_arguments(&mut self) {
        for operation in [1, 2, 3, 5] {
            let first = join(&[LET, &[2, operation, 2, 9]]);
            self.body("first position is a producer", PAIR, &first, 8, 5);
            let second = join(&[LET, &[2, operation, 0, 2]]);
            self.body("second position is a producer", PAIR, &second, 8, 6);
        }
        self.body("ifz of a producer", PAIR, &join(&[LET, &[2, 4, 2]]), 8, 5);
        self.body("exit of a producer", PAIR, &join(&[LET, &[2, 6, 2]]), 8, 5);
        self.body("exit of a consumer", PAIR, &join(&[NEW, &[2, 6, 1]]), 8, NEW.len() + 2);
    }

    /// 8 in let, new, switch and invoke.
    fn premises_of_values(&mut self) {
        let after_new = NEW.len();
        self.body("let with too few", PAIR, &[1, 0, 3, 0, 1], 8, 2);
        self.body("let with a producer for an integer", PAIR, &join(&[LET, &[3, 0, 1]]), 8, 3);
        let buried = join(&[&[1, 1, 0], LET, &[1, 2, 0, 1, 3, 0, 1]]);
        self.body("let with its integer before another entry", PAIR, &buried, 8, 10);
        self.body("new with one capture too many", PAIR, &[4, 0, 3], 8, 2);
        self.body("new with 255 captures", PAIR, &[4, 0, 255], 8, 2);
        self.body("new with one capture of none", EMPTY, &[4, 0, 1, 0], 8, 2);
        self.body("switch without entries", PAIR, &[1, 0, 5, 0], 8, 2);
        self.body("switch on an integer", PAIR, &[5, 0], 8, 0);
        self.body("switch on a consumer", PAIR, &join(&[NEW, &[5, 0]]), 8, after_new);
        self.body("switch on another signature", TWINS, &join(&[LET, &[5, 1]]), 8, 3);
        let buried = join(&[LET, &[1, 2, 2, 0, 5, 0]]);
        self.body("switch on a producer that is not last", PAIR, &buried, 8, 7);
        self.body("invoke without entries and symbol", PAIR, &[1, 0, 6], 8, 2);
        self.body("invoke of an integer", PAIR, &[6], 8, 0);
        self.body("invoke of a producer", PAIR, &join(&[LET, &[6, 0]]), 8, 3);
        self.body("invoke with one too many", PAIR, &join(&[NEW, &[6, 0]]), 8, after_new);
        let two = join(&[&[1, 2, 0, 0], NEW, &[1, 2, 1, 1, 6, 1]]);
        self.body("invoke with a consumer for an integer", PAIR, &two, 8, 24);
        let few = join(&[NEW, &[1, 1, 1, 6, 1]]);
        self.body("invoke with too few", PAIR, &few, 8, after_new + 3);
    }

    /// 9.
    fn clause_counts_and_symbols(&mut self) {
        let switch = |bytes: &[u8]| join(&[LET, &[5, 0], bytes]);
        self.body("switch: one clause of two", PAIR, &switch(&[1]), 9, 5);
        self.body("switch: three clauses of two", PAIR, &switch(&[3]), 9, 5);
        self.body("switch: no clause of two", PAIR, &switch(&[0]), 9, 5);
        self.body("switch: 255 clauses of two", PAIR, &switch(&[255]), 9, 5);
        self.body("switch: first symbol 1", PAIR, &switch(&[2, 1]), 9, 6);
        self.body("switch: first symbol 255", PAIR, &switch(&[2, 255]), 9, 6);
        let second = join(&[&[2], &clause(0, EXIT), &[0]]);
        self.body("switch: second symbol 0", PAIR, &switch(&second), 9, 12);
        self.body("new: one clause of two", PAIR, &[4, 0, 0, 1], 9, 3);
        self.body("new: three clauses of two", PAIR, &[4, 0, 0, 3], 9, 3);
        self.body("new: first symbol 1", PAIR, &[4, 0, 0, 2, 1], 9, 4);
        let second = join(&[&NEW[..10], &[2]]);
        self.body("new: second symbol 2", PAIR, &second, 9, 10);
        self.body("new: one clause of none", EMPTY, &[4, 0, 0, 1], 9, 3);
        let inside = join(&[&[2, 4, 0], &region(&switch(&[9])), &region(EXIT)]);
        self.body("switch: nine clauses of two in a clause", PAIR, &inside, 9, 10);
    }

    /// 11 in extern clauses.
    fn bytes_left_in_extern(&mut self) {
        let exit_and_more = region(&[2, 6, 0, 9]);
        let first = join(&[&[2, 4, 0], &exit_and_more, &region(EXIT)]);
        self.body("first clause of ifz", ONE, &first, 11, 8);
        let second = join(&[&[2, 4, 0], &region(EXIT), &exit_and_more]);
        self.body("second clause of ifz", ONE, &second, 11, 13);
        let less = join(&[&[2, 5, 0, 0], &region(EXIT), &exit_and_more]);
        self.body("second clause of less", ONE, &less, 11, 14);
        self.body("clause of lit", NONE, &join(&[LIT, &exit_and_more]), 11, 15);
        for operation in 1..=3 {
            let compute = join(&[&[2, operation, 0, 0], &exit_and_more]);
            self.body("clause of add, sub, mul", ONE, &compute, 11, 9);
        }
        let both = join(&[&[2, 4, 0], &exit_and_more]);
        self.body("first clause of ifz, and no second", ONE, &both, 11, 8);
        let after = join(&[&[2, 4, 0], &region(EXIT), &region(EXIT), &[0]]);
        self.body("after ifz", ONE, &after, 11, 13);
        self.body("after exit", ONE, &[2, 6, 0, 2, 6, 0], 11, 3);
    }

    /// 11 in other clauses, in bodies and in the image.
    fn bytes_left_elsewhere(&mut self) {
        let exit_and_more = &[2, 6, 0, 9];
        let switch = join(&[LET, &[5, 0, 2], &clause(0, exit_and_more), &clause(1, EXIT)]);
        self.body("first clause of switch", PAIR, &switch, 11, 12);
        let switch = join(&[LET, &[5, 0, 2], &clause(0, EXIT), &clause(1, exit_and_more)]);
        self.body("second clause of switch", PAIR, &switch, 11, 18);
        let switch = join(&[LET, &[5, 0, 2], &clause(0, EXIT), &clause(1, EXIT), &[0]]);
        self.body("after switch", PAIR, &switch, 11, 18);
        let new = join(&[&[4, 0, 1, 2], &clause(0, EXIT), &clause(1, exit_and_more), EXIT]);
        self.body("second clause of new", PAIR, &new, 11, 16);
        self.body("after what follows new", PAIR, &join(&[NEW, EXIT, &[9]]), 11, 19);
        self.body("after jump", NONE, &[0, 0, 0, 0], 11, 2);
        let invoke = join(&[NEW, &[6, 1, 6, 1]]);
        self.body("after invoke", PAIR, &invoke, 11, NEW.len() + 2);
        self.after_start("after the last body", &[0, 1, 0, 0, 2, 0, 0, 9], 11, 7);
        self.after_start("after two bodies", &[0, 2, 0, 0, 0, 2, 0, 0, 0, 2, 0, 1, 1], 11, 12);
        let first = &[0, 2, 0, 0, 0, 3, 0, 0, 0];
        self.after_start("in the first body, and no second", first, 11, 8);
    }
}
