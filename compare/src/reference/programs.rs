//! What the programs print. They have in common how a refusal is printed; those that
//! reckon also have the question's line before a town file.

mod arrivals;
mod convert;
mod sheet;

pub use arrivals::arrivals_text;
pub use convert::{to_new_text, to_old_text};
pub use sheet::sheet_text;

use super::limits::MAX_TEXT;
use super::load::{take_line, take_numbers};
use super::{LoadRefusal, Refusal};

/// A program's standard input: the numbers of its line `QU`, and the town file.
struct Question<'i> {
    numbers: Vec<u32>,
    town: &'i [u8],
}

impl<'i> Question<'i> {
    fn read(input: &'i [u8]) -> Result<Self, LoadRefusal> {
        if input.len() > MAX_TEXT {
            return Err(Refusal::TEXT_TOO_LONG.at_line(0));
        }
        Self::take(input).ok_or(Refusal::FORM.at_line(0))
    }

    fn take(input: &'i [u8]) -> Option<Self> {
        let mut town = input;
        let line = take_line(&mut town).strip_suffix(b"\n")?;
        let mut numbers = Vec::new();
        take_numbers(line.strip_prefix(b"QU")?, &mut numbers)?;
        Some(Self { numbers, town })
    }
}

/// What a program prints for its answer.
fn printed(answer: Result<impl Into<Vec<u8>>, LoadRefusal>) -> Vec<u8> {
    answer.map_or_else(
        |LoadRefusal { refusal, line }| format!("refused {} line {line}\n", refusal.0).into(),
        Into::into,
    )
}

#[cfg(test)]
mod tests {
    use super::*;
    use crate::inputs::examples::TOWN_TEXT;
    use crate::inputs::texts::pad;

    type Program = fn(&[u8]) -> Vec<u8>;

    const BOTH: [Program; 2] = [arrivals_text, sheet_text];

    /// What a program prints for a question's line and a town file.
    pub fn printed(program: Program, question: &str, town: &str) -> String {
        let input = format!("{question}{town}");
        String::from_utf8(program(input.as_bytes())).expect("printed bytes")
    }

    #[test]
    fn refuse_a_wrong_question_line_before_the_town() {
        for question in [
            "",
            "\n",
            "QU",
            "QU\n",
            "QU \n",
            "QU 0 \n",
            "QU 0 10 ",
            "QU 0 10 \n",
            "QU  0 10\n",
            "QU 0  10\n",
            "qu 0 10\n",
            "QU 00 10\n",
            "QU 0 010\n",
            "QU 0 10\r\n",
            " QU 0 10\n",
            "QU 12345678 10\n",
            "QU 0 12345678\n",
            "QU -1 10\n",
            "QU0 10\n",
        ] {
            for program in BOTH {
                for town in [TOWN_TEXT, "XX"] {
                    let refused = printed(program, question, town);
                    assert_eq!(refused, "refused 25 line 0\n", "{question:?}");
                }
            }
        }
        for program in BOTH {
            assert_eq!(printed(program, "QU 0 10", ""), "refused 25 line 0\n");
        }
    }

    #[test]
    fn count_the_question_line_towards_the_size() {
        let mut input = format!("QU 0 10\n{TOWN_TEXT}").into_bytes();
        let answers = BOTH.map(|program| program(&input));
        pad(&mut input, 65_536);
        assert_eq!(BOTH.map(|program| program(&input)), answers);
        input.push(b'X');
        for program in BOTH {
            assert_eq!(program(&input), b"refused 20 line 0\n");
            let refused = printed(program, "", &"x".repeat(65_537));
            assert_eq!(refused, "refused 20 line 0\n");
        }
    }
}
