//! The text on a verdict of the check, and on an answer of the run.

use axcut::{Answer, Ending, Verdict};

use crate::meaning::{meaning, meaning_at, place};
use crate::window::window;
use crate::Given;

/// Most bytes of an image. Of a longer file no more need be read than one byte more.
pub const MOST_BYTES: usize = 16_384;
/// Most words that are printed, and not only counted.
const FEW_WORDS: usize = 16;
/// What is said of a number that is none of document 01's.
const NO_MEANING: &str = "a number that document 01 does not have";

/// What the check says of an image of this name.
pub fn of_check(name: &str, image: &[u8], verdict: Verdict) -> String {
    let Verdict { number, offset } = verdict;
    let size = size(image);
    if verdict.is_accepted() {
        return format!("{name} has {size}.\nThe check accepts it: {number} at {offset}.\n");
    }
    let means = meaning_at(number, offset).unwrap_or(NO_MEANING);
    let window = window(image, offset, place(number, offset).unwrap_or("here"));
    format!(
        "{name} has {size}.\n\
         The check refuses it: {number} at {offset}, {means}.\n\
         {window}\
         It is not run.\n"
    )
}

/// What a run of an accepted image was given, how it ended, and what it stored in the table.
pub fn of_run(given: &Given, answer: Answer, table: &[u64]) -> String {
    let args = arguments(&given.args);
    let (fuel, words) = (given.fuel, counted(given.words.into(), "word"));
    let stored = &table[..answer.words as usize];
    format!(
        "The run has {args}, fuel {fuel} and a table of {words}.\n{}\n{}\n",
        ending(answer),
        storing(stored)
    )
}

/// The sentence on how a run ended, or why it was refused.
pub fn ending(answer: Answer) -> String {
    let number = answer.number;
    let means = meaning(number).unwrap_or(NO_MEANING);
    let ends =
        format!("It ends with {number}, {means}, after {}.", counted(answer.steps.into(), "step"));
    match answer.ending() {
        Ending::Exit(value) => format!("{ends} Its value is {value}."),
        Ending::FuelSpent => format!("{ends} It has no value."),
        Ending::RoomSpent => format!(
            "{ends} The next statement's block finds no room in the table, so that the statement \
             is neither counted nor performed."
        ),
        Ending::Refused(_) => format!("It is refused with {number}, {means}."),
    }
}

/// The sentence on the words stored, with the words where they are few: two for each field or
/// capture.
fn storing(stored: &[u64]) -> String {
    let words = counted(stored.len() as u64, "word");
    if stored.is_empty() {
        return "It stored no words.".into();
    }
    if stored.len() > FEW_WORDS {
        return format!("It stored {words}.");
    }
    let pairs: Vec<String> = stored.chunks(2).map(spaced).collect();
    format!("It stored {words}: {}.", pairs.join(", "))
}

/// How many bytes an image has; of too many the exact number may not be known.
fn size(image: &[u8]) -> String {
    if image.len() > MOST_BYTES {
        return "more than 16,384 bytes".into();
    }
    counted(image.len() as u64, "byte")
}

fn arguments(args: &[u64]) -> String {
    match args {
        [] => "no arguments".into(),
        [one] => format!("the argument {one}"),
        many => format!("the arguments {}", spaced(many)),
    }
}

/// So many of them: `1 word`, `2 words`.
fn counted(count: u64, one: &str) -> String {
    let plural = if count == 1 { "" } else { "s" };
    format!("{count} {one}{plural}")
}

fn spaced(numbers: &[u64]) -> String {
    let numbers: Vec<String> = numbers.iter().map(u64::to_string).collect();
    numbers.join(" ")
}

#[cfg(test)]
mod tests {
    use super::*;
    use std::collections::BTreeSet;

    fn refusal(number: u8, offset: usize) -> String {
        of_check("it.axcut", &[1, 0, 3, 0, 1, 0], Verdict { number, offset })
    }

    fn answer(number: u8, steps: u32, words: u32, value: u64) -> Answer {
        Answer { number, steps, words, value }
    }

    fn given(args: &[u64]) -> Given {
        Given { args: args.to_vec(), ..Given::default() }
    }

    #[test]
    fn an_accepted_image() {
        let verdict = Verdict { number: 0, offset: 3 };
        let expected = "it.axcut has 3 bytes.\nThe check accepts it: 0 at 3.\n";
        assert_eq!(of_check("it.axcut", &[1, 0, 0], verdict), expected);
    }

    #[test]
    fn a_refused_image() {
        let expected = concat!(
            "it.axcut has 6 bytes.\n",
            "The check refuses it: 4 at 4, a count outside its limits.\n",
            "      0: 01 00 03 00 01 00\n",
            "                     ^^ 4: the count byte\n",
            "It is not run.\n"
        );
        assert_eq!(refusal(4, 4), expected);
    }

    #[test]
    fn an_image_that_ends_too_soon() {
        let expected = concat!(
            "it.axcut has 6 bytes.\n",
            "The check refuses it: 3 at 6, an item or region passes the end of its region.\n",
            "      0: 01 00 03 00 01 00 --\n",
            "                           ^^ 6: the item's first byte, or the region's length field\n",
            "It is not run.\n"
        );
        assert_eq!(refusal(3, 6), expected);
    }

    #[test]
    fn an_image_that_is_too_long_is_not_counted() {
        let verdict = Verdict { number: 1, offset: 0 };
        let text = of_check("it.axcut", &[0; MOST_BYTES + 1], verdict);
        assert!(text.starts_with("it.axcut has more than 16,384 bytes.\n"), "{text}");
    }

    #[test]
    fn an_image_of_one_byte() {
        let verdict = Verdict { number: 1, offset: 0 };
        let text = of_check("it.axcut", &[1], verdict);
        assert!(text.starts_with("it.axcut has 1 byte.\n"), "{text}");
    }

    #[test]
    fn every_refusal_says_its_meaning_its_place_and_its_bytes() {
        for number in 1..=11 {
            let text = refusal(number, 1);
            assert!(text.contains(&format!("{number} at 1, {}.", meaning_at(number, 1).unwrap())));
            assert!(text.contains(&format!("^^ 1: {}\n", place(number, 1).unwrap())));
            assert!(text.contains("      0: 01 00 03 00 01 00\n"));
        }
    }

    #[test]
    fn refusals_are_told_apart() {
        let texts: BTreeSet<String> = (1..=11).map(|number| refusal(number, 2)).collect();
        assert_eq!(texts.len(), 11);
    }

    #[test]
    fn a_wrong_size() {
        let expected = concat!(
            "it.axcut has 2 bytes.\n",
            "The check refuses it: 1 at 0, fewer than 3 or more than 16,384 bytes.\n",
            "      0: 01 00\n",
            "         ^^ 0: the image's start\n",
            "It is not run.\n"
        );
        let verdict = Verdict { number: 1, offset: 0 };
        assert_eq!(of_check("it.axcut", &[1, 0], verdict), expected);
    }

    #[test]
    fn a_wrong_length_field() {
        let expected = concat!(
            "it.axcut has 6 bytes.\n",
            "The check refuses it: 1 at 1, wrong length field, which is not the number of bytes \
             behind it.\n",
            "      0: 01 00 03 00 01 00\n",
            "            ^^ 1: the length field\n",
            "It is not run.\n"
        );
        assert_eq!(refusal(1, 1), expected);
    }

    #[test]
    fn an_exit() {
        let expected = concat!(
            "The run has the arguments 740 700, fuel 100000 and a table of 1024 words.\n",
            "It ends with 40, exit, after 7 steps. Its value is 1.\n",
            "It stored 2 words: 0 700.\n"
        );
        assert_eq!(of_run(&given(&[740, 700]), answer(40, 7, 2, 1), &[0, 700, 5, 5]), expected);
    }

    #[test]
    fn fuel_spent() {
        let expected = "It ends with 41, fuel spent, after 1 step. It has no value.";
        assert_eq!(ending(answer(41, 1, 0, 0)), expected);
    }

    #[test]
    fn room_spent() {
        let expected = "It ends with 42, room spent, after 0 steps. The next statement's block \
                        finds no room in the table, so that the statement is neither counted nor \
                        performed.";
        assert_eq!(ending(answer(42, 0, 0, 0)), expected);
    }

    #[test]
    fn refused_runs() {
        let expected = "It is refused with 20, argument count differs from label 0's.";
        assert_eq!(ending(answer(20, 0, 0, 0)), expected);
        let expected = "It is refused with 21, table above 8,000 words.";
        assert_eq!(ending(answer(21, 0, 0, 0)), expected);
    }

    #[test]
    fn every_answer_has_a_sentence_of_its_own() {
        let numbers: Vec<u8> = (1..=11).chain([20, 21, 40, 41, 42]).collect();
        let sentence = |&number: &u8| ending(answer(number, 0, 0, 0));
        let sentences: BTreeSet<String> = numbers.iter().map(sentence).collect();
        assert_eq!(sentences.len(), numbers.len());
        let with_meaning = |number: &u8| {
            sentence(number).contains(&format!("{number}, {}", meaning(*number).unwrap()))
        };
        assert!(numbers.iter().all(with_meaning));
    }

    #[test]
    fn a_number_of_no_meaning_says_so() {
        let expected = "It is refused with 99, a number that document 01 does not have.";
        assert_eq!(ending(answer(99, 0, 0, 0)), expected);
    }

    #[test]
    fn arguments_of_every_number() {
        assert_eq!(arguments(&[]), "no arguments");
        assert_eq!(arguments(&[5]), "the argument 5");
        assert_eq!(arguments(&[5, u64::MAX]), "the arguments 5 18446744073709551615");
    }

    #[test]
    fn words_are_shown_in_pairs_where_they_are_few() {
        assert_eq!(storing(&[]), "It stored no words.");
        assert_eq!(storing(&[0, 4, 0, 9]), "It stored 4 words: 0 4, 0 9.");
        let pairs = ["0 0"; FEW_WORDS / 2].join(", ");
        assert_eq!(storing(&[0; FEW_WORDS]), format!("It stored 16 words: {pairs}."));
        assert_eq!(storing(&[0; FEW_WORDS + 2]), "It stored 18 words.");
    }
}
