//! The generator: every image is accepted, and all that document 01 names occurs.

mod common;

use std::collections::BTreeSet;

use second::assemble::assemble;
use second::decode::decode;
use second::generate::{self, Profile};
use second::random::Random;
use second::terms::{Extern, Last, Program, Statement, Straight, Type};
use second::{check, run};

/// How many images of each profile are looked at; together more than 20,000.
fn seeds(profile: Profile) -> u64 {
    match profile {
        Profile::Large => 800,
        _ => 3_250,
    }
}

/// What occurs in programs: the forms by name, and the extremes.
#[derive(Default)]
struct Census {
    forms: BTreeSet<&'static str>,
    widths: BTreeSet<usize>,
    depths: BTreeSet<usize>,
    captures: BTreeSet<usize>,
    fields: BTreeSet<usize>,
}

impl Census {
    fn program(&mut self, program: &Program) {
        for label in &program.labels {
            self.statement(program, &label.body, label.parameters.len(), 0);
        }
    }

    /// Follows the width, which needs no types.
    fn statement(&mut self, program: &Program, statement: &Statement, width: usize, depth: usize) {
        let mut width = width;
        self.widths.insert(width);
        self.depths.insert(depth);
        for straight in &statement.straight {
            width = self.straight(program, straight, width, depth);
            self.widths.insert(width);
        }
        match &statement.last {
            Last::Jump(_) => self.form("jump"),
            Last::Invoke(_) => self.form("invoke"),
            Last::Extern(operation) => self.extern_(program, operation, width, depth),
            Last::Switch { signature, clauses } => {
                self.form(if clauses.is_empty() { "switch without clauses" } else { "switch" });
                let symbols = &program.signatures[usize::from(*signature)].symbols;
                for (clause, parameters) in clauses.iter().zip(symbols) {
                    let inside = width - 1 + parameters.len();
                    self.statement(program, &clause.statement, inside, depth + 1);
                }
            }
        }
    }

    fn straight(
        &mut self,
        program: &Program,
        straight: &Straight,
        width: usize,
        depth: usize,
    ) -> usize {
        match straight {
            Straight::Substitute(positions) => {
                self.form("substitute");
                positions.len()
            }
            Straight::Let { signature, symbol } => {
                self.form("let");
                let symbols = &program.signatures[usize::from(*signature)].symbols;
                let fields = symbols[usize::from(*symbol)].len();
                self.fields.insert(fields);
                width - fields + 1
            }
            Straight::New { signature, captures, clauses, .. } => {
                self.form(if clauses.is_empty() { "new without clauses" } else { "new" });
                let captures = usize::from(*captures);
                self.captures.insert(captures);
                let symbols = &program.signatures[usize::from(*signature)].symbols;
                for (clause, parameters) in clauses.iter().zip(symbols) {
                    let inside = parameters.len() + captures;
                    self.statement(program, &clause.statement, inside, depth + 1);
                }
                width - captures + 1
            }
        }
    }

    fn extern_(&mut self, program: &Program, operation: &Extern, width: usize, depth: usize) {
        use second::terms::Arithmetic::{Add, Mul, Sub};
        let (form, gained) = match operation {
            Extern::Lit(..) => ("lit", 1),
            Extern::Compute(Add, ..) => ("add", 1),
            Extern::Compute(Sub, ..) => ("sub", 1),
            Extern::Compute(Mul, ..) => ("mul", 1),
            Extern::Ifz(..) => ("ifz", 0),
            Extern::Less(..) => ("less", 0),
            Extern::Exit(_) => ("exit", 0),
        };
        self.form(form);
        let alone = Statement { straight: vec![], last: Last::Extern(operation.clone()) };
        for clause in alone.clause_statements() {
            self.statement(program, clause, width + gained, depth + 1);
        }
    }

    fn form(&mut self, form: &'static str) {
        self.forms.insert(form);
    }
}

#[test]
fn every_image_is_accepted() {
    let mut images = 0;
    for profile in Profile::ALL {
        for seed in 0..seeds(profile) {
            let image = generate::image(seed, profile);
            let verdict = check(&image);
            assert_eq!(common::verdict(&image), common::accepted(&image), "{profile:?} {seed}");
            assert!(verdict.is_accepted());
            images += 1;
        }
    }
    assert!(images >= 20_000);
}

#[test]
fn every_form_width_and_depth_occurs() {
    let mut census = Census::default();
    for profile in Profile::ALL {
        for seed in 0..seeds(profile) / 8 {
            census.program(&generate::program(seed, profile));
        }
    }
    let forms = [
        "add",
        "exit",
        "ifz",
        "invoke",
        "jump",
        "less",
        "let",
        "lit",
        "mul",
        "new",
        "new without clauses",
        "sub",
        "substitute",
        "switch",
        "switch without clauses",
    ];
    assert_eq!(census.forms, BTreeSet::from(forms));
    assert_eq!(census.widths, (0..=32).collect());
    assert_eq!(census.depths, (0..=48).collect());
    assert!(census.fields.contains(&16) && census.fields.contains(&0));
    assert!(census.captures.contains(&32) && census.captures.contains(&0));
}

#[test]
fn each_profile_has_what_it_is_for() {
    let census = |profile: Profile| {
        let mut census = Census::default();
        (0..200).for_each(|seed| census.program(&generate::program(seed, profile)));
        census
    };
    assert!(census(Profile::Deep).depths.contains(&48));
    assert!(census(Profile::Wide).widths.contains(&32));
    assert!(census(Profile::Wide).fields.contains(&16));
    assert!((0..200).all(|seed| generate::image(seed, Profile::Tiny).len() <= 160));
    let large = (0..200).map(|seed| generate::image(seed, Profile::Large).len());
    let large: Vec<usize> = large.collect();
    assert!(large.iter().filter(|&&bytes| bytes > 10_000).count() >= 100);
    assert!(large.iter().filter(|&&bytes| bytes == 16_384).count() >= 30);
    assert!(large.contains(&16_383));
    assert!(large.iter().all(|&bytes| bytes <= 16_384));
}

#[test]
fn heads_reach_their_limits() {
    let mut signatures = BTreeSet::new();
    let mut symbols = BTreeSet::new();
    let mut parameters = BTreeSet::new();
    let mut labels = BTreeSet::new();
    let mut label_parameters = BTreeSet::new();
    let mut names_a_later_one = 0;
    for profile in Profile::ALL {
        for seed in 0..seeds(profile) / 4 {
            let program = generate::program(seed, profile);
            signatures.insert(program.signatures.len());
            labels.insert(program.labels.len());
            label_parameters.extend(program.labels.iter().map(|label| label.parameters.len()));
            for (number, signature) in program.signatures.iter().enumerate() {
                symbols.insert(signature.symbols.len());
                parameters.extend(signature.symbols.iter().map(Vec::len));
                let later = signature.symbols.iter().flatten().filter(|one| match one {
                    Type::Prd(named) | Type::Cns(named) => usize::from(*named) > number,
                    Type::Ext => false,
                });
                names_a_later_one += later.count();
            }
        }
    }
    assert!(signatures.contains(&0) && signatures.contains(&64));
    assert!(symbols.contains(&0) && symbols.contains(&32));
    assert!(parameters.contains(&0) && parameters.contains(&16));
    assert!(labels.contains(&1) && labels.contains(&64));
    assert!(label_parameters.contains(&0) && label_parameters.contains(&32));
    assert!(names_a_later_one > 1_000);
}

#[test]
fn runs_end_in_every_way_and_do_something_first() {
    let mut ends = [0; 3];
    let mut long_exits = 0;
    let mut exits_after_storing = 0;
    let mut runs = 0;
    for profile in Profile::ALL {
        for seed in 0..seeds(profile) / 4 {
            let program = generate::program(seed, profile);
            let image = assemble(&program).expect("generated");
            let args = generate::arguments(&program, &mut Random::new(seed));
            let answer = run(&image, &args, 2_000, &mut [0; 1_024]);
            runs += 1;
            ends[usize::from(answer.number) - 40] += 1;
            long_exits += u32::from(answer.number == 40 && answer.steps >= 10);
            exits_after_storing += u32::from(answer.number == 40 && answer.words > 0);
        }
    }
    assert!(ends.iter().all(|&end| end * 10 > runs), "{ends:?} of {runs}");
    assert!(long_exits * 10 > runs, "{long_exits} of {runs}");
    assert!(exits_after_storing * 10 > runs, "{exits_after_storing} of {runs}");
}

#[test]
fn a_seed_decides_the_image() {
    for profile in Profile::ALL {
        for seed in 0..20 {
            assert_eq!(generate::image(seed, profile), generate::image(seed, profile));
        }
        assert_ne!(generate::image(1, profile), generate::image(2, profile));
    }
}

#[test]
fn a_shape_can_be_asked_for() {
    let mut random = Random::new(7);
    for bytes in [64, 65, 100, 200, 5_000, 16_384, 100_000] {
        for profile in Profile::ALL {
            for width in [0, 1, 32, 99] {
                let shape = generate::Shape::of(profile, &mut random);
                let shape = generate::Shape { bytes, width, depth: 2 * width, ..shape };
                let image = assemble(&generate::program_of(&shape, &mut random)).expect("bytes");
                assert!(image.len() <= bytes.min(16_384));
                assert!(check(&image).is_accepted());
                assert!(decode(&image).is_some());
            }
        }
    }
}
