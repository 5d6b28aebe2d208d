use std::fmt::Write;

use super::{Question, printed};
use crate::reference::closures::ClosedArcs;
use crate::reference::limits::{FIGURES, UNREACHED};
use crate::reference::load::Town;
use crate::reference::sheet::{check_departures, fill};
use crate::reference::{LoadRefusal, Refusal};

/// What the program `sheet` prints for this standard input.
pub fn sheet_text(input: &[u8]) -> Vec<u8> {
    printed(answer(input))
}

fn answer(input: &[u8]) -> Result<String, LoadRefusal> {
    let question = Question::read(input)?;
    let [source, ref departures @ ..] = question.numbers[..] else {
        return Err(Refusal::FORM.at_line(0));
    };
    let town = Town::read(question.town)?;
    let network = town.network();
    let asked = check_departures(network.junctions, source, departures);
    asked.map_err(|refusal| refusal.at_line(0))?;
    let junctions = network.junctions as usize;
    let mut labels = vec![UNREACHED; departures.len() * junctions];
    let mut figures = vec![0; FIGURES * junctions];
    let buffers = (&mut labels[..], &mut figures[..]);
    let closed = ClosedArcs::none();
    fill(&network, closed, source, departures, buffers.0, buffers.1);
    Ok(lines(&figures))
}

fn lines(figures: &[u32]) -> String {
    let mut lines = String::new();
    let (figures, _) = figures.as_chunks::<FIGURES>();
    for (junction, [reached, least, greatest, sum]) in figures.iter().enumerate() {
        let written = writeln!(lines, "{junction} {reached} {least} {greatest} {sum}");
        written.expect("a string takes every line");
    }
    lines
}

#[cfg(test)]
mod tests {
    use super::super::tests;
    use super::*;
    use crate::inputs::examples::{HELD_TOWN_TEXT, TOWN_TEXT};

    fn printed(question: &str, town: &str) -> String {
        tests::printed(sheet_text, question, town)
    }

    #[test]
    fn prints_a_line_for_each_junction() {
        let expected = "0 2 0 0 0\n1 2 50 100 150\n2 2 90 150 240\n";
        assert_eq!(printed("QU 0 100 10\n", TOWN_TEXT), expected);
        let expected = "0 2 0 0 0\n1 2 50 100 150\n2 2 107 157 264\n";
        assert_eq!(printed("QU 0 100 10\n", HELD_TOWN_TEXT), expected);
        let expected = "0 0 0 0 0\n1 0 0 0 0\n2 1 0 0 0\n";
        assert_eq!(printed("QU 2 863999\n", TOWN_TEXT), expected);
    }

    #[test]
    fn refuses_the_form_of_a_list_of_any_length() {
        for departures in [1, 96, 97, 30_000] {
            let question = format!("QU 0{}", " 0".repeat(departures));
            for end in [" \n", " 00\n", " x\n", "\t\n"] {
                let refused = printed(&format!("{question}{end}"), TOWN_TEXT);
                assert_eq!(refused, "refused 25 line 0\n", "{departures} {end:?}");
            }
        }
    }

    #[test]
    fn refuses_the_town_before_the_question_values() {
        for (departures, number) in [(0, 30), (1, 10), (96, 10), (97, 30), (8_000, 30)] {
            let list = " 9999999".repeat(departures);
            let question = format!("QU 2{list}\n");
            let faulty = printed(&question, "TN 3 2\nFN 0\n");
            assert_eq!(faulty, "refused 25 line 2\n");
            assert_eq!(printed(&question, ""), "refused 27 line 1\n");
            let refused = format!("refused {number} line 0\n");
            assert_eq!(printed(&question, TOWN_TEXT), refused);
            let question = format!("QU 3{list}\n");
            assert_eq!(printed(&question, TOWN_TEXT), "refused 9 line 0\n");
        }
    }
}
