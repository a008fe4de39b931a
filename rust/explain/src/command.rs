//! The command line of `axcut-explain`.

use std::str::FromStr;

use crate::Given;

/// What the program takes.
pub const USAGE: &str = "\
axcut-explain FILE [--args N..] [--fuel N] [--words N]

Says in words what the proved check and run answer for the AxCut image FILE.

  --args N..   arguments of the run, 64-bit numbers; without it none
  --fuel N     how many statements it may perform, a 32-bit number; without it 100000
  --words N    how many words the table has that it is lent, up to 65535; without it 1024

Numbers are unsigned decimal.
";

/// What is asked for.
#[derive(Debug, PartialEq, Eq)]
pub enum Command {
    /// To say how the program is used.
    Help,
    /// To explain this file, run with what is given.
    Explain(String, Given),
}

/// What these words of a command line ask for, or what is wrong with them.
pub fn command(words: &[String]) -> Result<Command, String> {
    match words {
        [] => Err("which FILE?".into()),
        [help] if help == "--help" => Ok(Command::Help),
        [option, ..] if is_option(option) => Err(format!("FILE comes before {option}")),
        [file, options @ ..] => Ok(Command::Explain(file.clone(), given(options)?)),
    }
}

/// What the options give: each with the words up to the next one.
fn given(options: &[String]) -> Result<Given, String> {
    let mut given = Given::default();
    let mut rest = options;
    while let [option, words @ ..] = rest {
        let count = words.iter().take_while(|word| !is_option(word)).count();
        let (values, others) = words.split_at(count);
        match option.as_str() {
            "--args" => given.args = values.iter().map(number).collect::<Result<_, _>>()?,
            "--fuel" => given.fuel = one_number(option, values)?,
            "--words" => given.words = one_number(option, values)?,
            _ => return Err(format!("{option} is not known")),
        }
        rest = others;
    }
    Ok(given)
}

fn is_option(word: &str) -> bool {
    word.starts_with("--")
}

fn one_number<N: FromStr>(option: &str, values: &[String]) -> Result<N, String> {
    match values {
        [value] => number(value),
        _ => Err(format!("{option} takes one number")),
    }
}

fn number<N: FromStr>(word: &String) -> Result<N, String> {
    word.parse().map_err(|_| format!("{word} is not a number, or too large"))
}

#[cfg(test)]
mod tests {
    use super::*;

    fn of(line: &str) -> Result<Command, String> {
        let words: Vec<String> = line.split_whitespace().map(String::from).collect();
        command(&words)
    }

    fn explain(args: &[u64], fuel: u32, words: u16) -> Result<Command, String> {
        let given = Given { args: args.to_vec(), fuel, words };
        Ok(Command::Explain("it.axcut".into(), given))
    }

    #[test]
    fn a_file_alone_is_run_as_document_01_s_program_runs_it() {
        assert_eq!(of("it.axcut"), explain(&[], 100_000, 1_024));
    }

    #[test]
    fn options_in_any_order() {
        assert_eq!(of("it.axcut --args 5 9 --fuel 3 --words 2"), explain(&[5, 9], 3, 2));
        assert_eq!(of("it.axcut --words 2 --fuel 3 --args 5 9"), explain(&[5, 9], 3, 2));
        assert_eq!(of("it.axcut --args --fuel 0"), explain(&[], 0, 1_024));
    }

    #[test]
    fn numbers_up_to_their_widths() {
        let line = "it.axcut --args 18446744073709551615 --fuel 4294967295 --words 65535";
        assert_eq!(of(line), explain(&[u64::MAX], u32::MAX, u16::MAX));
        for line in ["--args 18446744073709551616", "--fuel 4294967296", "--words 65536"] {
            let fault = of(&format!("it.axcut {line}")).unwrap_err();
            assert!(fault.ends_with(" is not a number, or too large"), "{fault}");
        }
    }

    #[test]
    fn what_is_wrong_is_said() {
        let fault = |line| of(line).unwrap_err();
        assert_eq!(fault(""), "which FILE?");
        assert_eq!(fault("--fuel 3 it.axcut"), "FILE comes before --fuel");
        assert_eq!(fault("it.axcut other.axcut"), "other.axcut is not known");
        assert_eq!(fault("it.axcut --depth 3"), "--depth is not known");
        assert_eq!(fault("it.axcut --fuel"), "--fuel takes one number");
        assert_eq!(fault("it.axcut --words 3 4"), "--words takes one number");
        assert_eq!(fault("it.axcut --args 5 nine"), "nine is not a number, or too large");
        assert_eq!(fault("it.axcut --args -5"), "-5 is not a number, or too large");
    }

    #[test]
    fn help() {
        assert_eq!(of("--help"), Ok(Command::Help));
    }

    #[test]
    fn the_usage_says_what_is_taken_without_options() {
        let Given { args, fuel, words } = Given::default();
        assert!(args.is_empty() && USAGE.contains("without it none"));
        assert!(USAGE.contains(&format!("without it {fuel}")));
        assert!(USAGE.contains(&format!("without it {words}")));
    }
}
