//! The converters: the sizes of results and outputs, the order of refusals, holds, lines
//! that must pass through, the programs, and every stored text.

use std::env;
use std::fs;
use std::path::PathBuf;

use compare::cabinet;
use compare::comparison::answers::{self, TableLengths};
use compare::comparison::program::{Program, Run, TO_NEW, TO_OLD};
use compare::comparison::{Difference, Outcome, properties};
use compare::inputs::texts::{FORMS, pad};
use compare::operations::CABINET;
use compare::reference::limits::{MAX_ARCS, MAX_INTERVALS, MAX_TEXT};
use compare::reference::{Form, Refusal};

/// What a conversion into an output of this length comes to, on which both agree: the
/// result, or the number and the line of the refusal.
fn converted(to: Form, text: &[u8], room: usize) -> Result<Vec<u8>, (u32, u32)> {
    agreed(answers::convert(to, text, room));
    let mut output = vec![7; room];
    let reply = CABINET.converter(to)(text, &mut output);
    let length = reply.map_err(|refused| (refused.refusal.0, refused.line))?;
    output.truncate(length);
    Ok(output)
}

fn agreed(outcome: Result<Outcome, Difference>) -> Outcome {
    outcome.unwrap_or_else(|difference| panic!("{difference}"))
}

/// A result must be the expected text; it is shown if it is not.
fn assert_converted(to: Form, text: &str, expected: &str) {
    let result = converted(to, text.as_bytes(), expected.len()).map(String::from_utf8);
    assert_eq!(result, Ok(Ok(expected.to_owned())));
}

fn assert_both_ways(old: &str, new: &str) {
    assert_converted(Form::New, old, new);
    assert_converted(Form::Old, new, old);
}

fn assert_refused(to: Form, text: &str, refusal: (u32, u32)) {
    for room in [0, 1, text.len(), 65_536, 70_000] {
        assert_eq!(
            converted(to, text.as_bytes(), room),
            Err(refusal),
            "{text:?}"
        );
    }
}

const OLD: &str = "TN 3 2\nFN 0 100\nAR 0 1 50 36 18\nAR 1 2 50 36 0\n";
const NEW: &str = "TW 3 2\nFN 0 100\nAR 0 1 50 36 18 0\nAR 1 2 50 36 0 0\n";

/// The text with comments up to this size.
fn padded(text: &str, size: usize) -> Vec<u8> {
    let mut text = text.as_bytes().to_vec();
    pad(&mut text, size);
    assert_eq!(text.len(), size);
    text
}

#[test]
fn sizes_of_results() {
    for size in [65_535, 65_536] {
        let old = padded(OLD, size - 4);
        let new = padded(NEW, size);
        for room in [size, size + 1, 65_536, 65_537, 70_000] {
            assert_eq!(converted(Form::New, &old, room), Ok(new.clone()));
            assert_eq!(converted(Form::Old, &new, room), Ok(old.clone()));
        }
        assert_eq!(converted(Form::Old, &new, size - 4), Ok(old.clone()));
        assert_eq!(converted(Form::New, &old, size - 1), Err((35, 0)));
        assert_eq!(converted(Form::Old, &new, size - 5), Err((35, 0)));
    }
    // Above the limit, however long the output is.
    for size in [65_537, 65_538, 65_540] {
        let old = padded(OLD, size - 4);
        for room in [0, 65_536, size - 1, size, size + 1, 1_000_000] {
            assert_eq!(converted(Form::New, &old, room), Err((35, 0)));
            assert_eq!(converted(Form::Old, &old, room), Err((33, 0)));
        }
    }
    for text in [OLD, NEW] {
        for to in FORMS {
            let long = padded(text, 65_537);
            assert_eq!(converted(to, &long, 70_000), Err((20, 0)));
        }
    }
}

#[test]
fn outputs() {
    for (to, text, result) in [(Form::New, OLD, NEW), (Form::Old, NEW, OLD)] {
        for room in 0..result.len() {
            assert_eq!(converted(to, text.as_bytes(), room), Err((35, 0)));
        }
        for room in [0, 1, 2, 9, 1_000, 65_536, 70_000] {
            let reply = converted(to, text.as_bytes(), result.len() + room);
            assert_eq!(reply.as_deref(), Ok(result.as_bytes()));
        }
    }
}

#[test]
fn the_most_arcs() {
    let arcs = |start: &str, arc: &str, count| start.to_owned() + &arc.repeat(count);
    for count in [0, 1, 2, 639, 640] {
        let old = arcs("TN 3 1\nFN 0\n", "AR 0 1 5 0\n", count);
        let new = arcs("TW 3 1\nFN 0\n", "AR 0 1 5 0 0\n", count);
        assert_both_ways(&old, &new);
    }
    let old = arcs("TN 3 1\nFN 0\n", "AR 0 1 5 0\n", 641);
    let new = arcs("TW 3 1\nFN 0\n", "AR 0 1 5 0 0\n", 641);
    for text in [old, new] {
        for to in FORMS {
            assert_refused(to, &text, (26, 643));
        }
    }
}

#[test]
fn without_arcs() {
    assert_both_ways("TN 1 1\nFN 0\n", "TW 1 1\nFN 0\n");
    assert_both_ways("TN 1 1\nFN 0\nJN 0 AR\n", "TW 1 1\nFN 0\nJN 0 AR\n");
    // Then the text may be as long as its result.
    for size in [65_535, 65_536] {
        let old = padded("TN 1 1\nFN 0\n", size);
        let new = padded("TW 1 1\nFN 0\n", size);
        assert_eq!(converted(Form::New, &old, size), Ok(new.clone()));
        assert_eq!(converted(Form::Old, &new, size), Ok(old.clone()));
        assert_eq!(converted(Form::New, &old, size - 1), Err((35, 0)));
        assert_eq!(converted(Form::Old, &new, size - 1), Err((35, 0)));
    }
}

#[test]
fn longest_arcs() {
    let fences: String = (0..96).map(|fence| format!(" {fence}")).collect();
    let start = |mark| format!("{mark} 200 96\nFN{fences}\n");
    let arc = format!("AR 198 199 100000{}", " 200".repeat(96));
    assert_eq!(arc.len(), 401);
    for count in [1, 2, 161] {
        let old = start("TN") + &format!("{arc}\n").repeat(count);
        let new = start("TW") + &format!("{arc} 0\n").repeat(count);
        assert_both_ways(&old, &new);
        let held = start("TW") + &format!("{arc} 1200\n").repeat(count);
        let refusal = if held.len() > MAX_TEXT {
            (20, 0)
        } else {
            (34, 0)
        };
        assert_refused(Form::Old, &held, refusal);
    }
    // As many as an old text holds have no room in a new one.
    let old = start("TN") + &format!("{arc}\n").repeat(162);
    assert!((65_213..=65_536).contains(&old.len()));
    assert_refused(Form::New, padded_text(&old, 65_536).as_str(), (35, 0));
}

fn padded_text(text: &str, size: usize) -> String {
    String::from_utf8(padded(text, size)).expect("printed bytes")
}

#[test]
fn holds() {
    for arcs in [1, 2, 5] {
        for place in 0..arcs {
            let text = |hold: &str| {
                let arc = |arc| format!("AR 0 1 5 0 {}\n", if arc == place { hold } else { "0" });
                let arcs: String = (0..arcs).map(arc).collect();
                format!("TW 2 1\nFN 0\n{arcs}CM 0\n")
            };
            let old = format!("TN 2 1\nFN 0\n{}CM 0\n", "AR 0 1 5 0\n".repeat(arcs));
            assert_both_ways(&old, &text("0"));
            for hold in ["1", "9", "10", "100", "256", "1024", "1199", "1200"] {
                assert_refused(Form::Old, &text(hold), (34, 0));
                assert_refused(Form::New, &text(hold), (33, 0));
            }
            let line = 3 + place as u32;
            for to in FORMS {
                for hold in ["1201", "65536", "9999999"] {
                    assert_refused(to, &text(hold), (26, line));
                }
                for hold in ["", "00", "-0", "0 0", "10000000"] {
                    assert_refused(to, &text(hold), (25, line));
                }
            }
        }
    }
}

#[test]
fn the_order_of_refusals() {
    let held = NEW.replace(" 18 0\n", " 18 7\n");
    // 33 before 34 and 35, 34 before 35, and Load's before them all.
    assert_refused(Form::New, NEW, (33, 0));
    assert_refused(Form::New, &held, (33, 0));
    assert_refused(Form::Old, OLD, (33, 0));
    assert_refused(Form::Old, &held, (34, 0));
    for text in [OLD, NEW, &held] {
        for to in FORMS {
            for (end, refusal) in [
                ("CM", (21, 5)),
                (&format!("CM{}\n", " ".repeat(699)), (22, 5)),
                ("XX\n", (23, 5)),
                ("TN 3 2\n", (24, 5)),
                ("TW 3 2\n", (24, 5)),
                ("JN 0 a\n", (24, 5)),
                ("AR 0 1\n", (25, 5)),
                ("CM\nCMx\n", (25, 6)),
            ] {
                assert_refused(to, &format!("{text}{end}"), refusal);
            }
        }
    }
    for to in FORMS {
        assert_refused(to, "", (27, 1));
        assert_refused(to, "CM TN 1 1\n", (27, 2));
        assert_refused(to, "TN 1 1\n", (27, 2));
        assert_refused(to, "TW 1 1\nCM\n", (27, 3));
        assert_refused(to, "TW 3 1\nFN 0\nAR 0 1 5 36 1201\n", (26, 3));
        assert_refused(to, "TW 3 1\nFN 0\nAR 0 1 5 36 7\nAR 0 1 5 36\n", (25, 4));
        assert_refused(to, "TN 3 1\nFN 0\nAR 0 1 5 36\nAR 0 1 5 36 0\n", (25, 4));
        assert_refused(to, &"\n".repeat(65_537), (20, 0));
    }
}

#[test]
fn lines_that_pass_through() {
    const LINES: [&str; 14] = [
        "CM",
        "CM ",
        "CM  ",
        "CM 0",
        "CM  0",
        "CM 0 0",
        "CM TN 3 2",
        "CM TW 3 2",
        "CM TN",
        "CM TW",
        "CM AR 0 1 50 36 18",
        "CM AR 0 1 50 36 18 0",
        "CM AR 0 1 50 36 18 1200",
        "CM ~ AR",
    ];
    let names = "JN 0 TN\nJN 1 TW 3 2\nJN 2 AR 0 1 50 36 18 0 0\n";
    let names_at_their_end = "JN 0 0\nJN 1 a 0\nJN 2 0 AR\n";
    for names in ["", names, names_at_their_end] {
        let old = OLD.replace("FN 0 100\n", &format!("FN 0 100\n{names}"));
        let new = NEW.replace("FN 0 100\n", &format!("FN 0 100\n{names}"));
        assert_both_ways(&old, &new);
        for place in 0..=old.lines().count() {
            for line in LINES {
                assert_both_ways(&with_line(&old, place, line), &with_line(&new, place, line));
            }
        }
        let all = format!("{}\n", LINES.join("\n"));
        let between = |text: &str| {
            let lines = text.lines().map(|line| format!("{all}{line}\n"));
            lines.collect::<String>() + &all
        };
        assert_both_ways(&between(&old), &between(&new));
    }
}

/// The text with one more line, so many lines before it.
fn with_line(text: &str, place: usize, line: &str) -> String {
    let mut lines: Vec<&str> = text.lines().collect();
    lines.insert(place, line);
    lines.join("\n") + "\n"
}

#[test]
fn speeds_of_0_are_no_holds() {
    assert_both_ways(
        "TN 2 3\nFN 0 1 2\nAR 0 1 1 0 0 0\nAR 1 0 10 0 0 0\n",
        "TW 2 3\nFN 0 1 2\nAR 0 1 1 0 0 0 0\nAR 1 0 10 0 0 0 0\n",
    );
    // A speed that looks as a hold of the other form would.
    for to in FORMS {
        assert_refused(to, "TW 2 3\nFN 0 1 2\nAR 0 1 1 0 0 0\n", (25, 3));
        assert_refused(to, "TN 2 3\nFN 0 1 2\nAR 0 1 1 0 0 0 0\n", (25, 3));
    }
}

#[test]
fn the_programs() {
    let refused = |program: &Program, text: &[u8], refusal: &str| {
        let printed = format!("refused {refusal}\n");
        assert_eq!(program.run(text), Run::ended(&printed, 1));
    };
    for (program, text, result) in [(&TO_NEW, OLD, NEW), (&TO_OLD, NEW, OLD)] {
        assert_eq!(program.run(text.as_bytes()), Run::ended(result, 0));
        refused(program, result.as_bytes(), "33 line 0");
        refused(program, b"", "27 line 1");
        refused(program, b"\n", "23 line 1");
        refused(program, b"CM", "21 line 1");
        refused(program, b"TW 2 1\nFN 0\nAR 0 1 5 36\n", "25 line 3");
        refused(program, b"TW 2 1\nFN 0\nAR 0 1 5 36 1201\n", "26 line 3");
        refused(program, b"TW 2 1\nTN 2 1\nFN 0\n", "24 line 2");
        // There is no question before the town.
        let asked = format!("QU 0 10\n{text}");
        refused(program, asked.as_bytes(), "23 line 1");
        refused(program, &padded(text, 65_537), "20 line 0");
        refused(program, &[b'X'; 70_000], "20 line 0");
    }
    let held = NEW.replace(" 18 0\n", " 18 1200\n");
    refused(&TO_OLD, held.as_bytes(), "34 line 0");
    refused(&TO_NEW, held.as_bytes(), "33 line 0");
    for size in [65_535, 65_536] {
        let (old, new) = (padded_text(OLD, size - 4), padded_text(NEW, size));
        assert_eq!(TO_NEW.run(old.as_bytes()), Run::ended(&new, 0));
        assert_eq!(TO_OLD.run(new.as_bytes()), Run::ended(&old, 0));
    }
    for size in [65_537, 65_540] {
        refused(&TO_NEW, &padded(OLD, size - 4), "35 line 0");
    }
}

/// Where the stored texts stand, unless `TEXTS` names another folder.
const STORED: &str = concat!(env!("CARGO_MANIFEST_DIR"), "/../crates/test_texts/data");

fn stored_texts() -> Vec<(PathBuf, Vec<u8>)> {
    let folder = env::var_os("TEXTS").map_or_else(|| PathBuf::from(STORED), PathBuf::from);
    let files = fs::read_dir(&folder).unwrap_or_else(|error| {
        panic!(
            "{}: {error}; set TEXTS to the stored texts",
            folder.display()
        )
    });
    let paths = files.map(|file| file.expect("the folder can be read").path());
    let mut paths: Vec<PathBuf> = paths.filter(|path| path.is_file()).collect();
    paths.sort();
    let read = |path: PathBuf| {
        let text = fs::read(&path).expect("the file can be read");
        (path, text)
    };
    paths.into_iter().map(read).collect()
}

#[test]
fn stored_texts_there_and_back() {
    let all = TableLengths::exact(MAX_INTERVALS, MAX_ARCS);
    let mut converted_ones = 0;
    for (path, text) in stored_texts() {
        println!("{}", path.display());
        for to in FORMS {
            for room in [0, text.len(), MAX_TEXT, MAX_TEXT + 2 * MAX_ARCS] {
                agreed(answers::convert(to, &text, room));
            }
        }
        for program in [&TO_NEW, &TO_OLD] {
            agreed(answers::program(program, &text));
        }
        agreed(answers::name(&text, 0));
        let load = agreed(answers::load(&text, all));
        let there_and_back = agreed(properties::there_and_back(&text));
        for (start, destination) in [((0, 0), 1), ((0, 10), 2), ((1, 863_999), 0)] {
            agreed(answers::host_question(&text, start, destination));
            let converted = agreed(properties::converted_town(&text, start, destination));
            assert_eq!(converted, there_and_back);
        }
        match load {
            Outcome::Answered => {
                let number = match there_and_back {
                    Outcome::Refused(Refusal(number)) => number,
                    _ => 0,
                };
                assert!([0, 34, 35].contains(&number), "{number}");
                converted_ones += u32::from(number == 0);
            }
            refused => assert_eq!(there_and_back, refused),
        }
    }
    assert!(converted_ones > 0, "no stored text is a town file");
}

#[test]
fn the_text_stays() {
    // A conversion lends the text for reading alone.
    for (text, convert) in [
        (OLD, cabinet::to_new as fn(&[u8], &mut [u8]) -> _),
        (NEW, cabinet::to_old),
    ] {
        let lent = text.as_bytes().to_vec();
        assert!(convert(&lent, &mut [7; 200]).is_ok());
        assert!(convert(&lent, &mut []).is_err());
        assert_eq!(lent, text.as_bytes());
    }
}
