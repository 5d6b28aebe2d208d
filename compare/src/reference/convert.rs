//! One form of a town file turned into the other.

use std::io::Write;
use std::iter;

use super::limits::MAX_TEXT;
use super::load::{Town, take_line};
use super::{Form, LoadRefusal, Refusal};

/// The end of a new `AR` line that says what an old one does.
const NO_HOLD: &[u8] = b" 0";

/// Writes an old town file in the new form, and returns its length.
pub fn to_new(text: &[u8], output: &mut [u8]) -> Result<usize, LoadRefusal> {
    let town = Town::read(text)?;
    check(Refusal::WANTED_FORM, town.form() != Form::New)?;
    let length = text.len() + NO_HOLD.len() * town.network().tails.len();
    let mut result = Output::of(output, length)?;
    for line in lines(text) {
        match line {
            [b'T', b'N', counts @ ..] => result.put([b"TW", counts]),
            [b'A', b'R', .., b'\n'] => result.put([&line[..line.len() - 1], NO_HOLD, b"\n"]),
            _ => result.put([line]),
        }
    }
    Ok(length)
}

/// Writes a new town file without holds in the old form, and returns its length.
pub fn to_old(text: &[u8], output: &mut [u8]) -> Result<usize, LoadRefusal> {
    let town = Town::read(text)?;
    check(Refusal::WANTED_FORM, town.form() != Form::Old)?;
    let holds = town.network().holds;
    check(Refusal::HELD, holds.iter().all(|&hold| hold == 0))?;
    let length = text.len() - NO_HOLD.len() * holds.len();
    let mut result = Output::of(output, length)?;
    for line in lines(text) {
        match line {
            [b'T', b'W', counts @ ..] => result.put([b"TN", counts]),
            [b'A', b'R', .., b' ', b'0', b'\n'] => result.put([&line[..line.len() - 3], b"\n"]),
            _ => result.put([line]),
        }
    }
    Ok(length)
}

/// Refuses a text as a whole unless the condition holds.
fn check(refusal: Refusal, condition: bool) -> Result<(), LoadRefusal> {
    let checked = refusal.unless(condition);
    checked.map_err(|refusal| refusal.at_line(0))
}

/// The lines of a text, each with its line feed.
fn lines(mut text: &[u8]) -> impl Iterator<Item = &[u8]> {
    iter::from_fn(move || (!text.is_empty()).then(|| take_line(&mut text)))
}

/// What is left to write of a result.
struct Output<'o>(&'o mut [u8]);

impl<'o> Output<'o> {
    fn of(output: &'o mut [u8], length: usize) -> Result<Self, LoadRefusal> {
        let fits = length <= MAX_TEXT && length <= output.len();
        check(Refusal::RESULT_TOO_LONG, fits)?;
        Ok(Self(&mut output[..length]))
    }

    fn put<const N: usize>(&mut self, parts: [&[u8]; N]) {
        for part in parts {
            self.0.write_all(part).expect("the result has its length");
        }
    }
}

#[cfg(test)]
mod tests {
    use super::*;
    use crate::inputs::texts::pad;

    type Converter = fn(&[u8], &mut [u8]) -> Result<usize, LoadRefusal>;

    const OLD: &str = "\
CM TN 3 2
TN 3 2
FN 0 100
JN 0 AR 0
JN 2 TN
CM AR 0 1 50 36 18
AR 0 1 50 36 0
CM
AR 1 2 50 0 0
CM 0
";

    const NEW: &str = "\
CM TN 3 2
TW 3 2
FN 0 100
JN 0 AR 0
JN 2 TN
CM AR 0 1 50 36 18
AR 0 1 50 36 0 0
CM
AR 1 2 50 0 0 0
CM 0
";

    /// The result of a conversion into so long an output; a refusal must leave it.
    fn converted(converter: Converter, text: &str, room: usize) -> Result<String, (u32, u32)> {
        let mut output = vec![7; room];
        let reply = converter(text.as_bytes(), &mut output);
        let length = reply.unwrap_or(0);
        assert!(output[length..].iter().all(|&byte| byte == 7));
        output.truncate(length);
        match reply {
            Ok(_) => Ok(String::from_utf8(output).expect("printed bytes")),
            Err(LoadRefusal { refusal, line }) => Err((refusal.0, line)),
        }
    }

    #[test]
    fn changes_the_mark_and_the_holds_alone() {
        assert_eq!(OLD.len() + 4, NEW.len());
        for room in [NEW.len(), NEW.len() + 1, 70_000] {
            assert_eq!(converted(to_new, OLD, room), Ok(NEW.to_owned()));
            assert_eq!(converted(to_old, NEW, room), Ok(OLD.to_owned()));
        }
        assert_eq!(converted(to_old, NEW, OLD.len()), Ok(OLD.to_owned()));
    }

    #[test]
    fn refuses_in_the_papers_order() {
        let faulty = [OLD, "XX\n"].concat();
        assert_eq!(converted(to_new, &faulty, 0), Err((23, 11)));
        let held = NEW.replace("36 0 0\n", "36 0 1\n");
        assert_eq!(converted(to_new, &held, 0), Err((33, 0)));
        let faulty = [&held, "XX"].concat();
        assert_eq!(converted(to_old, &faulty, 0), Err((21, 11)));
        assert_eq!(converted(to_old, OLD, 0), Err((33, 0)));
        assert_eq!(converted(to_old, &held, 0), Err((34, 0)));
        assert_eq!(converted(to_old, NEW, OLD.len() - 1), Err((35, 0)));
        assert_eq!(converted(to_new, OLD, NEW.len() - 1), Err((35, 0)));
    }

    #[test]
    fn refuses_a_result_that_is_too_long() {
        for (size, expected) in [(65_536, Ok(65_536)), (65_537, Err((35, 0)))] {
            let mut text = OLD.as_bytes().to_vec();
            pad(&mut text, size - 4);
            let text = String::from_utf8(text).expect("printed bytes");
            let result = converted(to_new, &text, 70_000);
            assert_eq!(result.map(|result| result.len()), expected);
        }
    }
}
