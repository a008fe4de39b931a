//! Damage to terms: the bytes keep document 01's "Image layout" and its lengths are right, so that
//! what fails, if anything, is "Typing by position".

use crate::assemble::assemble;
use crate::layout::{MOST_DEPTH, MOST_WIDTH};
use crate::random::Random;
use crate::terms::{Clause, Extern, Last, Program, Statement, Straight, Type};

/// The bytes of the program after one change; `None` where it has no bytes any more.
pub(super) fn one_change(mut program: Program, random: &mut Random) -> Option<Vec<u8>> {
    if program.labels.is_empty() || random.one_in(8) {
        change_head(&mut program, random);
    } else if random.one_in(8) {
        transplant(&mut program, random);
    } else {
        let statement = some_statement(&mut program, random)?;
        match random.below(4) {
            0 => change_order(statement, random),
            1 => change_one_straight(statement, random),
            2 => change_last(statement, random),
            _ => insert(statement, random),
        }
    }
    assemble(&program)
}

/// A statement of the program, a body or a clause at any depth.
fn some_statement<'p>(program: &'p mut Program, random: &mut Random) -> Option<&'p mut Statement> {
    if program.labels.is_empty() {
        return None;
    }
    let label = random.below(program.labels.len());
    let mut found = &mut program.labels[label].body;
    loop {
        let below = found.clause_statements().len();
        if below == 0 || random.one_in(5) {
            return Some(found);
        }
        found = found.clause_statements_mut().swap_remove(random.below(below));
    }
}

/// Puts a copy of one statement in the place of another.
fn transplant(program: &mut Program, random: &mut Random) {
    let copy = some_statement(program, random).map(|statement| statement.clone());
    if let (Some(copy), Some(place)) = (copy, some_statement(program, random)) {
        *place = copy;
    }
}

fn change_head(program: &mut Program, random: &mut Random) {
    if random.one_in(3) {
        return crowd_entry(program, random);
    }
    let signatures = program.signatures.len();
    let wanted = random.below(2);
    let list = if wanted == 0 && signatures > 0 {
        let symbols = &mut program.signatures[random.below(signatures)].symbols;
        let place = random.below(symbols.len().max(1));
        symbols.get_mut(place)
    } else {
        let place = random.below(program.labels.len().max(1));
        program.labels.get_mut(place).map(|label| &mut label.parameters)
    };
    match list {
        Some(list) => change_list(list, signatures, random),
        None => program.signatures.push(Default::default()),
    }
}

/// Gives label 0 nearly as many integers as it may have. Its body's positions still name integers,
/// so that it goes well until an entry too many is made.
fn crowd_entry(program: &mut Program, random: &mut Random) {
    if let Some(entry) = program.labels.first_mut() {
        let width = random.between(MOST_WIDTH - 2, MOST_WIDTH);
        entry.parameters.resize(width.max(entry.parameters.len()), Type::Ext);
    }
}

fn change_list(list: &mut Vec<Type>, signatures: usize, random: &mut Random) {
    let signature = random.below(signatures.max(1)) as u8;
    let new = [Type::Ext, Type::Prd(signature), Type::Cns(signature)][random.below(3)];
    let place = random.below(list.len().max(1));
    match random.below(3) {
        0 => list.insert(place.min(list.len()), new),
        1 if !list.is_empty() => {
            list.remove(place);
        }
        _ if !list.is_empty() => list[place] = new,
        _ => list.push(new),
    }
}

/// Removes, repeats or swaps statements that are followed by another.
fn change_order(statement: &mut Statement, random: &mut Random) {
    let straight = &mut statement.straight;
    if straight.is_empty() {
        return change_last(statement, random);
    }
    let (first, second) = (random.below(straight.len()), random.below(straight.len()));
    match random.below(3) {
        0 => {
            straight.remove(first);
        }
        1 => {
            let repeated = straight[first].clone();
            straight.insert(second, repeated);
        }
        _ => straight.swap(first, second),
    }
}

fn change_one_straight(statement: &mut Statement, random: &mut Random) {
    if statement.straight.is_empty() {
        return change_last(statement, random);
    }
    let place = random.below(statement.straight.len());
    match &mut statement.straight[place] {
        Straight::Substitute(positions) => change_positions(positions, random),
        Straight::Let { signature, symbol } => {
            let changed = if random.one_in(2) { signature } else { symbol };
            change_number(changed, random);
        }
        Straight::New { signature, captures, clauses, .. } => match random.below(3) {
            0 => change_number(signature, random),
            1 => change_number(captures, random),
            _ => change_clauses(clauses, random),
        },
    }
}

fn change_positions(positions: &mut Vec<u8>, random: &mut Random) {
    let place = random.below(positions.len().max(1));
    match random.below(4) {
        0 => positions.push(random.below(33) as u8),
        1 => {
            positions.pop();
        }
        2 if positions.len() > 1 => positions.swap(place, 0),
        _ => {
            if let Some(position) = positions.get_mut(place) {
                change_number(position, random);
            }
        }
    }
}

/// Removes, repeats or swaps clauses, or swaps their symbols only.
fn change_clauses(clauses: &mut Vec<Clause>, random: &mut Random) {
    if clauses.is_empty() {
        let statement = Statement::exit(0);
        return clauses.push(Clause { symbol: 0, statement });
    }
    let (first, second) = (random.below(clauses.len()), random.below(clauses.len()));
    match random.below(4) {
        0 => {
            clauses.remove(first);
        }
        1 => {
            let repeated = clauses[first].clone();
            clauses.insert(second, repeated);
        }
        2 => clauses.swap(first, second),
        _ => {
            let symbol = clauses[first].symbol;
            clauses[first].symbol = clauses[second].symbol;
            clauses[second].symbol = symbol;
        }
    }
}

fn change_last(statement: &mut Statement, random: &mut Random) {
    match &mut statement.last {
        Last::Jump(label) => change_number(label, random),
        Last::Invoke(symbol) => change_number(symbol, random),
        Last::Switch { signature, .. } if random.one_in(3) => change_number(signature, random),
        Last::Switch { clauses, .. } => change_clauses(clauses, random),
        Last::Extern(operation) => change_operation(operation, random),
    }
}

fn change_operation(operation: &mut Extern, random: &mut Random) {
    match operation {
        Extern::Lit(value, _) => *value = random.integer(),
        Extern::Compute(_, first, second, _) | Extern::Less(first, second, _) => {
            change_number(if random.one_in(2) { first } else { second }, random);
        }
        Extern::Ifz(position, _) | Extern::Exit(position) => change_number(position, random),
    }
}

fn change_number(number: &mut u8, random: &mut Random) {
    *number = match random.below(3) {
        0 => number.wrapping_add(1),
        1 => number.wrapping_sub(1),
        _ => random.below(34) as u8,
    };
}

/// Puts something in front that the rest may not bear: another environment, one entry more, or
/// clauses around it.
fn insert(statement: &mut Statement, random: &mut Random) {
    let place = random.below(statement.straight.len() + 1);
    let number = random.below(4) as u8;
    match random.below(6) {
        0 => statement.straight.insert(place, Straight::Substitute(Vec::new())),
        1 => {
            let made = Straight::Let { signature: number, symbol: random.below(2) as u8 };
            statement.straight.insert(place, made);
        }
        2 => {
            let (captures, clauses) = (random.below(3) as u8, Vec::new());
            let made = Straight::New { signature: number, captures, clauses, offset: 0 };
            statement.straight.insert(place, made);
        }
        3 => crowd(statement, random),
        _ => nest(statement, random),
    }
}

/// One entry so many times that what follows may make one too many: before a clause that gains an
/// integer, before a new that captures all, or before the end.
fn crowd(statement: &mut Statement, random: &mut Random) {
    let position = random.below(6) as u8;
    let crowded = Straight::Substitute(vec![position; random.between(MOST_WIDTH - 1, MOST_WIDTH)]);
    let is_new = |straight: &Straight| matches!(straight, Straight::New { .. });
    match (random.below(3), statement.straight.iter().position(is_new)) {
        (0, Some(place)) => {
            if let Straight::New { captures, .. } = &mut statement.straight[place] {
                *captures = random.between(MOST_WIDTH - 2, MOST_WIDTH) as u8;
            }
            statement.straight.insert(place, crowded);
        }
        (1, _) => statement.straight.push(crowded),
        _ => {
            let inside = std::mem::replace(statement, Statement::exit(0));
            *statement = Statement::lit(random.integer(), inside);
            statement.straight.push(crowded);
        }
    }
}

/// The statement inside so many clauses that some may be too deep.
fn nest(statement: &mut Statement, random: &mut Random) {
    let most = MOST_DEPTH + 2;
    let times = if random.one_in(2) { most } else { random.between(1, most) };
    let position = random.below(2) as u8;
    for _ in 0..times {
        let inside = std::mem::replace(statement, Statement::exit(position));
        *statement = match random.below(2) {
            0 => Statement::ifz(position, inside, Statement::exit(position)),
            _ => Statement::less(position, position, Statement::exit(position), inside),
        };
    }
}
