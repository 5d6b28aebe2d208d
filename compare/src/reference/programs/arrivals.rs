use std::fmt::Write;

use super::{Question, printed};
use crate::reference::closures::ClosedArcs;
use crate::reference::labels::{Search, check_start};
use crate::reference::limits::{NO_ARC, UNREACHED};
use crate::reference::load::Town;
use crate::reference::{LoadRefusal, Refusal};

/// What the program `arrivals` prints for this standard input.
pub fn arrivals_text(input: &[u8]) -> Vec<u8> {
    printed(answer(input))
}

fn answer(input: &[u8]) -> Result<String, LoadRefusal> {
    let question = Question::read(input)?;
    let [source, departure] = question.numbers[..] else {
        return Err(Refusal::FORM.at_line(0));
    };
    let town = Town::read(question.town)?;
    let network = town.network();
    let start = check_start(network.junctions, source, departure);
    start.map_err(|refusal| refusal.at_line(0))?;
    let mut labels = vec![UNREACHED; network.junctions as usize];
    let mut predecessors = vec![NO_ARC; network.junctions as usize];
    let search = Search::new(&network, ClosedArcs::none());
    search.run(source, departure, &mut labels, &mut predecessors);
    Ok(table(&labels, &predecessors))
}

fn table(labels: &[u32], predecessors: &[u16]) -> String {
    let mut table = String::from("junction arrival arc\n");
    for (junction, (&label, &predecessor)) in labels.iter().zip(predecessors).enumerate() {
        let written = match (label, predecessor) {
            (UNREACHED, _) => writeln!(table, "{junction} - -"),
            (_, NO_ARC) => writeln!(table, "{junction} {label} -"),
            _ => writeln!(table, "{junction} {label} {predecessor}"),
        };
        written.expect("a string takes every line");
    }
    table
}

#[cfg(test)]
mod tests {
    use super::super::tests;
    use super::*;
    use crate::inputs::examples::{HELD_TOWN_TEXT, TOWN_TEXT};

    fn printed(question: &str, town: &str) -> String {
        tests::printed(arrivals_text, question, town)
    }

    #[test]
    fn prints_the_papers_town() {
        let expected = "junction arrival arc\n0 10 -\n1 60 0\n2 100 1\n";
        assert_eq!(printed("QU 0 10\n", TOWN_TEXT), expected);
        let expected = "junction arrival arc\n0 10 -\n1 60 0\n2 117 2\n";
        assert_eq!(printed("QU 0 10\n", HELD_TOWN_TEXT), expected);
    }

    #[test]
    fn prints_a_dash_for_unreached() {
        let expected = "junction arrival arc\n0 - -\n1 - -\n2 0 -\n";
        assert_eq!(printed("QU 2 0\n", TOWN_TEXT), expected);
    }

    #[test]
    fn refuses_all_but_two_numbers_before_the_town() {
        for question in ["QU 0\n", "QU 0 10 0\n"] {
            for town in [TOWN_TEXT, "XX"] {
                assert_eq!(printed(question, town), "refused 25 line 0\n");
            }
        }
    }

    #[test]
    fn refuses_the_town_before_the_question_values() {
        assert_eq!(
            printed("QU 3 864000\n", "TN 3 2\nFN 0\n"),
            "refused 25 line 2\n"
        );
        assert_eq!(printed("QU 3 864000\n", ""), "refused 27 line 1\n");
        assert_eq!(printed("QU 3 864000\n", TOWN_TEXT), "refused 9 line 0\n");
        assert_eq!(printed("QU 2 864000\n", TOWN_TEXT), "refused 10 line 0\n");
    }
}
