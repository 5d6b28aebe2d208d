//! Town files at and just beyond each limit, with the refusal that documents 01 and 02
//! demand of the library and the reference.

use compare::cabinet;
use compare::comparison::answers::{self, TableLengths};
use compare::inputs::texts::pad;
use compare::reference::limits::{MAX_ARCS, MAX_INTERVALS};

const TAKEN: (u32, u32) = (0, 0);

/// Number and line of the refusal on which both agree.
fn refused(text: &[u8]) -> (u32, u32) {
    let all = TableLengths::exact(MAX_INTERVALS, MAX_ARCS);
    if let Err(difference) = answers::load(text, all) {
        panic!("{difference}");
    }
    let reply = cabinet::load(
        text,
        &mut vec![0; all.fences],
        &mut vec![0; all.tails],
        &mut vec![0; all.heads],
        &mut vec![0; all.lengths],
        &mut vec![0; all.holds],
        &mut vec![0; all.speeds],
    );
    reply.map_or_else(|refused| (refused.refusal.0, refused.line), |_| TAKEN)
}

/// Each line, put at the end of the text, is refused with this number there, or
/// taken where the number is 0. Without arcs the new form has the same rules.
fn assert_last_line(text: &str, number: u32, lines: &[&str]) {
    let at = text.lines().count() as u32 + 1;
    let expected = if number == 0 { TAKEN } else { (number, at) };
    for line in lines {
        let text = format!("{text}{line}\n");
        assert_eq!(refused(text.as_bytes()), expected, "{line:?}");
        if !text.contains("AR") {
            let new = text.replace("TN", "TW");
            assert_eq!(refused(new.as_bytes()), expected, "{line:?}");
        }
    }
}

const START: &str = "TN 3 2\nFN 0 100\n";
const NEW_START: &str = "TW 3 2\nFN 0 100\n";

#[test]
fn counts() {
    for intervals in [1, 96] {
        let fences: String = (0..intervals).map(|fence| format!(" {fence}")).collect();
        for junctions in [1, 200] {
            for mark in ["TN", "TW"] {
                let text = format!("{mark} {junctions} {intervals}\nFN{fences}\n");
                assert_eq!(refused(text.as_bytes()), TAKEN);
            }
        }
    }
    assert_last_line(
        "",
        26,
        &["TN 0 1", "TN 201 1", "TN 1 0", "TN 1 97", "TN 1234567 1"],
    );
    let ill_formed = [
        "TN",
        "TN ",
        "TN 3",
        "TN 3 2 1",
        "TN 201 2 1",
        "TN  3 2",
        "TN 3  2",
        "TN 3 2 ",
        "TN3 2",
        "TN 03 2",
        "TN 3 02",
        "TN 3 00",
        "TN 12345678 2",
        "TN 3 2\r",
        "TN\t3 2",
        "TN -3 2",
        "TN 0000001 1",
    ];
    assert_last_line("", 25, &ill_formed);
}

#[test]
fn fences() {
    assert_last_line("TN 3 2\n", 0, &["FN 0 1", "FN 0 863999"]);
    assert_last_line(
        "TN 3 2\n",
        26,
        &["FN 1 2", "FN 0 0", "FN 0 864000", "FN 100 0"],
    );
    let ill_formed = [
        "FN",
        "FN 0",
        "FN 1",
        "FN 0 100 200",
        "FN 0 x",
        "FN 864000 ",
        "FN 1 864000 ",
    ];
    assert_last_line("TN 3 2\n", 25, &ill_formed);
}

#[test]
fn names() {
    let good = [
        "JN 2 abcdefghijklmnopqrstuvwx",
        "JN 0 a  ~",
        "JN 0 !",
        "JN 2 0",
    ];
    assert_last_line(START, 0, &good);
    let ill_formed = [
        "JN",
        "JN 0",
        "JN 0 ",
        "JN 0  a",
        "JN 0 a ",
        "JN 0  ",
        "JN x a",
        "JN a",
        "JN 0\ta",
        "JN0 a",
        "JN 0 a\u{7f}",
        "JN 0 a\u{1f}b",
        "JN 0 \u{e9}",
        "JN 3  a",
        "JN 00 a",
        "JN 0 abcdefghijklmnopqrstuvwxy",
    ];
    assert_last_line(START, 25, &ill_formed);
    assert_last_line(START, 26, &["JN 3 a", "JN 9999999 a"]);
    let named = format!("{START}JN 1 a\nCM\n");
    assert_last_line(&named, 0, &["JN 2 a"]);
    assert_last_line(&named, 26, &["JN 1 a", "JN 0 a"]);
}

#[test]
fn arcs() {
    let good = ["AR 0 1 1 0 0", "AR 2 1 100000 200 200"];
    assert_last_line(START, 0, &good);
    let ill_formed = [
        "AR",
        "AR 0 1",
        "AR 3 1 50 36",
        "AR 0 1 50 36",
        "AR 0 1 50 36 18 1",
        "AR 0 1 50 36 18 ",
        "AR 0 1 50 36 018",
        "AR 0 1 50 36 00",
        "AR 3 3 0 201",
        "AR 3 3 0 201 12345678",
        "AR 0 1 50 36,18",
    ];
    assert_last_line(START, 25, &ill_formed);
    let outside = [
        "AR 3 0 50 36 18",
        "AR 0 3 50 36 18",
        "AR 1 1 50 36 18",
        "AR 0 1 0 36 18",
        "AR 0 1 100001 36 18",
        "AR 0 1 50 201 18",
        "AR 0 1 50 36 201",
        "AR 0 1 50 36 256",
        "AR 65536 1 50 36 18",
    ];
    assert_last_line(START, 26, &outside);
}

#[test]
fn arcs_with_holds() {
    let good = [
        "AR 0 1 1 0 0 0",
        "AR 0 1 50 36 18 1",
        "AR 0 1 50 36 18 1199",
        "AR 2 1 100000 200 200 1200",
    ];
    assert_last_line(NEW_START, 0, &good);
    let ill_formed = [
        "AR",
        "AR 0 1 50",
        "AR 0 1 50 36",
        "AR 0 1 50 36 18",
        "AR 0 1 50 36 18 ",
        "AR 0 1 50 36 18 0 ",
        "AR 0 1 50 36 18 0 0",
        "AR 0 1 50 36 18 1201 0",
        "AR 0 1 50 36 18  0",
        "AR 0 1 50 36 18 00",
        "AR 0 1 50 36 18 01200",
        "AR 0 1 50 36 18 -1",
        "AR 0 1 50 36 18 x",
        "AR 0 1 50 36 18 0\r",
        "AR 0 1 50 36 18 10000000",
        "AR 3 3 0 201 201",
        "AR 3 3 0 201 201 1201 ",
    ];
    assert_last_line(NEW_START, 25, &ill_formed);
    let outside = [
        "AR 0 1 50 36 18 1201",
        "AR 0 1 50 36 18 1202",
        "AR 0 1 50 36 18 2048",
        "AR 0 1 50 36 18 65535",
        "AR 0 1 50 36 18 65536",
        "AR 0 1 50 36 18 66736",
        "AR 0 1 50 36 18 9999999",
        "AR 3 0 50 36 18 0",
        "AR 1 1 50 36 18 0",
        "AR 0 1 0 36 18 0",
        "AR 0 1 100001 36 18 0",
        "AR 0 1 50 201 18 0",
        "AR 0 1 50 36 201 0",
        "AR 0 1 50 36 1200 0",
    ];
    assert_last_line(NEW_START, 26, &outside);
    // What an arc of the other form has is one number too few or too many.
    assert_last_line(START, 25, &good);
    // One interval, so that only the hold's place says what a number is.
    let one = |mark| format!("{mark} 3 1\nFN 0\n");
    assert_last_line(&one("TW"), 0, &["AR 0 1 50 200 1200", "AR 0 1 50 0 0"]);
    assert_last_line(
        &one("TW"),
        26,
        &["AR 0 1 50 201 1200", "AR 0 1 50 200 1201"],
    );
    assert_last_line(&one("TW"), 25, &["AR 0 1 50 200", "AR 0 1 50 200 1200 0"]);
    assert_last_line(&one("TN"), 25, &["AR 0 1 50 200 1200", "AR 0 1 50 0 0"]);
}

#[test]
fn holds_in_their_table() {
    let text = b"TW 2 2\nFN 0 1\nAR 0 1 9 3 4 1200\nCM\nAR 1 0 8 5 6 0\nAR 0 1 7 1 2 1\n";
    let load = |text: &[u8]| {
        let mut holds = [7; 5];
        let mut speeds = [7; 7];
        let tables = (&mut [7; 2], &mut [7; 3], &mut [7; 3], &mut [7; 3]);
        let (fences, tails, heads, lengths) = tables;
        let reply = cabinet::load(text, fences, tails, heads, lengths, &mut holds, &mut speeds);
        assert!(reply.is_ok());
        assert_eq!((*fences, *lengths), ([0, 1], [9, 8, 7]));
        assert_eq!(speeds, [3, 4, 5, 6, 1, 2, 7]);
        holds
    };
    assert_eq!(load(text), [1_200, 0, 1, 7, 7]);
    // In the old form there is hold 0 throughout, and it is written.
    let text = b"TN 2 2\nFN 0 1\nAR 0 1 9 3 4\nCM\nAR 1 0 8 5 6\nAR 0 1 7 1 2\n";
    assert_eq!(load(text), [0, 0, 0, 7, 7]);
}

#[test]
fn arc_count() {
    for (start, arc, short) in [
        (START, "AR 0 1 1 1 1", "AR 0 1 1 1"),
        (NEW_START, "AR 0 1 1 1 1 1200", "AR 0 1 1 1 1"),
    ] {
        let arcs = |count| start.to_owned() + &format!("{arc}\n").repeat(count);
        assert_last_line(&arcs(639), 0, &[arc]);
        assert_last_line(&arcs(640), 26, &[arc]);
        assert_last_line(&arcs(640), 25, &[short]);
    }
}

#[test]
fn longest_arcs() {
    // Every number has as many digits as its limit.
    let fences: String = (0..96).map(|fence| format!(" {fence}")).collect();
    let old = format!("AR 198 199 100000{}", " 200".repeat(96));
    let new = format!("{old} 1200");
    assert_eq!((old.len(), new.len()), (401, 406));
    let start = |mark| format!("{mark} 200 96\nFN{fences}\n");
    assert_last_line(&start("TN"), 0, &[&old]);
    assert_last_line(&start("TW"), 0, &[&new]);
    assert_last_line(&start("TN"), 25, &[&new]);
    assert_last_line(&start("TW"), 25, &[&old]);
    assert_last_line(
        &start("TW"),
        26,
        &[&format!("{old} 1201"), &format!("{old} 9999999")],
    );
    for mark in ["TN", "TW"] {
        let longer = |bytes| format!("{old}{}", " 0".repeat(200))[..bytes].to_owned();
        assert_last_line(&start(mark), 25, &[&longer(699), &longer(700)]);
        assert_last_line(&start(mark), 22, &[&longer(701)]);
    }
}

#[test]
fn marks() {
    assert_last_line(START, 23, &["", "C", "cm", " CM", "XX", "AN 1", "\r"]);
    assert_last_line(START, 24, &["TN", "FN", "TN 3 2", "FN 0 100"]);
    assert_last_line("", 24, &["FN", "JN", "AR", "FN 0", "JN 0 a", "AR 0 1 1 1"]);
    assert_last_line("TN 3 2\n", 24, &["TN", "JN", "AR"]);
    assert_last_line(&format!("{START}AR 0 1 1 1 1\n"), 24, &["JN", "JN 0 a"]);
}

#[test]
fn marks_of_the_forms() {
    // A second one of the two, whichever it is, and of whichever form.
    let counts = ["TN", "TW", "TN 3 2", "TW 3 2", "TN 0 0", "TW x"];
    for mark in ["TN", "TW"] {
        let first = format!("{mark} 3 2\n");
        let start = format!("{first}FN 0 100\n");
        let arc = if mark == "TN" {
            "AR 0 1 1 1 1"
        } else {
            "AR 0 1 1 1 1 0"
        };
        for before in [
            first.clone(),
            start.clone(),
            format!("{start}JN 0 a\n"),
            format!("{start}JN 0 a\n{arc}\n"),
        ] {
            assert_last_line(&before, 24, &counts);
        }
        assert_last_line(&first, 24, &["JN", "AR", "JN 0 a", arc]);
        assert_last_line(&start, 24, &["FN", "FN 0 100"]);
        assert_last_line(&format!("{start}{arc}\n"), 24, &["JN", "JN 1 b"]);
        assert_last_line(&format!("{start}{arc}\n"), 0, &[arc, "CM"]);
    }
    assert_last_line(
        "",
        23,
        &["tw 3 2", "Tw 3 2", "TX 3 2", "WT 3 2", "NT 3 2", "T", "W"],
    );
    // The line before it decides, not the one after it.
    assert_eq!(
        refused(b"TW 3 2\nFN 0 100\nAR 0 1 1 1 1\nTN 3 2\n"),
        (25, 3)
    );
    assert_eq!(
        refused(b"TN 3 2\nTW 3 2\nFN 0 100\nAR 0 1 1 1 1 0\n"),
        (24, 2)
    );
}

#[test]
fn comments() {
    assert_last_line(START, 0, &["CM", "CM ", "CM  ", "CM ~"]);
    let ill_formed = [
        "CMx",
        "CM\t",
        "CM \r",
        "CM a\r",
        "CM \u{7f}",
        "CM \u{1f}",
        "CM \u{e9}",
    ];
    assert_last_line(START, 25, &ill_formed);
    let text = b"CM\nTN 2 1\nCM \nFN 0\nCM a\nJN 1 b\nCM\nAR 1 0 1 0\nCM\nAR 0 1 1 0\nCM\n";
    assert_eq!(refused(text), TAKEN);
}

#[test]
fn line_length() {
    assert_last_line(START, 0, &[&format!("CM{}", " ".repeat(698))]);
    assert_last_line(
        START,
        22,
        &[&format!("CM{}", " ".repeat(699)), &"X".repeat(701)],
    );
    assert_last_line(START, 23, &[&"X".repeat(700)]);
}

#[test]
fn no_line_feed() {
    for line in [" ", "CM", &"X".repeat(701)] {
        assert_eq!(refused(format!("{START}{line}").as_bytes()), (21, 3));
    }
}

#[test]
fn text_length() {
    for (size, expected) in [(65_535, TAKEN), (65_536, TAKEN), (65_537, (20, 0))] {
        for start in [START, NEW_START] {
            let mut text = start.as_bytes().to_vec();
            pad(&mut text, size);
            assert_eq!(text.len(), size);
            assert_eq!(refused(&text), expected);
        }
    }
    assert_eq!(refused(&[b'X'; 65_536]), (21, 1));
    assert_eq!(refused(&[b'\n'; 65_537]), (20, 0));
}

#[test]
fn the_first_faulty_line() {
    assert_eq!(refused(b"TN 0 2\nXX\n"), (26, 1));
    assert_eq!(refused(b"TN 1 1\nXX\nFN 1"), (23, 2));
}

#[test]
fn missing_lines() {
    assert_eq!(refused(b""), (27, 1));
    assert_eq!(refused(b"CM\nCM\n"), (27, 3));
    assert_eq!(refused(b"CM\nTN 1 1\n"), (27, 3));
    assert_eq!(refused(b"TW 1 1\n"), (27, 2));
    assert_eq!(refused(b"CM\nTW 1 1\nCM TN\n"), (27, 4));
    assert_eq!(refused(b"CM TW 1 1\nCM FN 0\n"), (27, 3));
}

#[test]
fn table_lengths() {
    let old = &b"TN 2 2\nFN 0 1\nAR 0 1 1 1 1\nAR 1 0 1 1 1\n"[..];
    let new = b"TW 2 2\nFN 0 1\nAR 0 1 1 1 1 9\nAR 1 0 1 1 1 0\n";
    for text in [old, new] {
        assert_table_lengths(text);
    }
}

/// Two intervals and two arcs need tables of this length.
fn assert_table_lengths(text: &[u8]) {
    let load = |tables| match answers::load(text, tables) {
        Ok(outcome) => outcome.to_string(),
        Err(difference) => panic!("{difference}"),
    };
    let exact = TableLengths::exact(2, 2);
    assert_eq!(load(exact), "answered");
    assert_eq!(load(TableLengths { holds: 3, ..exact }), "answered");
    for short in [
        TableLengths { holds: 1, ..exact },
        TableLengths { holds: 0, ..exact },
        TableLengths { fences: 1, ..exact },
        TableLengths { tails: 1, ..exact },
        TableLengths { heads: 1, ..exact },
        TableLengths {
            lengths: 1,
            ..exact
        },
        TableLengths { speeds: 3, ..exact },
    ] {
        assert_eq!(load(short), "refused 28");
    }
}
