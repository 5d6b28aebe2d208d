use crate::inputs::Random;
use crate::inputs::texts::{comment_of, lines, pad};
use crate::reference::limits::{MAX_ARCS, MAX_LINE, MAX_TEXT};

/// Fields just inside and just outside what documents 01 and 02 allow.
#[rustfmt::skip]
const BOUNDARY_FIELDS: [&str; 35] = [
    "0", "1", "2", "3", "95", "96", "97", "199", "200", "201", "255", "256", "257", "1200",
    "1201", "65535", "65536", "65537", "99999", "100000", "100001", "863999", "864000",
    "1728000", "9999999", "10000000", "99999999999", "00", "01", "", " ", "-1", "+1", "1.0",
    "1\r",
];

/// Lines of interest, to be put in anywhere.
#[rustfmt::skip]
const BOUNDARY_LINES: [&[u8]; 34] = [
    b"", b"\r", b"C", b"cm", b"XX", b" CM", b"CM", b"CM ", b"CM  ", b"CMx", b"CM\t",
    b"CM \x1f", b"CM ~", b"CM \x7f", b"CM \xff", b"TN 200 96", b"TN 1 1", b"TW 200 96",
    b"TW 1 1", b"TW", b"TW ", b"tw 1 1", b"TX 1 1", b"FN 0",
    b"FN 0 863999", b"JN 0 abcdefghijklmnopqrstuvwx", b"JN 0 abcdefghijklmnopqrstuvwxy",
    b"JN 0 a ", b"JN 0  a", b"JN 199 ~ !", b"AR 0 1 100000 200", b"AR 1 0 1",
    b"AR 0 1 9 36 0", b"AR 1 0 9 36 1200",
];

/// Bytes that a wrong edit is likely to contain.
const BYTES: &[u8] = b" \n0129ACFJMNRTW-~\t\r\x00\x1f\x7f\x80\xff";

pub fn damage_text(random: &mut Random, text: &mut Vec<u8>) {
    for _ in 0..random.up_to_one_of(&[1, 1, 4]) {
        match random.below(5) {
            0 => damage_bytes(random, text),
            1 => damage_size(random, text),
            2 => edit_lines(random, text, |random, lines| damage_field(random, lines)),
            3 => edit_lines(random, text, damage_form),
            _ => edit_lines(random, text, damage_lines),
        }
    }
}

fn damage_bytes(random: &mut Random, text: &mut Vec<u8>) {
    let place = random.place(text.len() + 1);
    match random.below(4) {
        0 => text.truncate(place),
        1 if place < text.len() => text[place] = random.pick(BYTES),
        2 if place < text.len() => drop(text.remove(place)),
        _ => text.insert(place, random.pick(BYTES)),
    }
}

/// Brings the text, a line or the number of arcs to its limit or beyond it.
fn damage_size(random: &mut Random, text: &mut Vec<u8>) {
    let beyond = random.index(2);
    match random.below(4) {
        0 => pad(text, MAX_TEXT + beyond),
        1 => edit_lines(random, text, |_, lines| {
            repeat_last_arc(lines, MAX_ARCS + beyond)
        }),
        _ => edit_lines(random, text, |random, lines| {
            let line = long_line(random, MAX_LINE + 1 + beyond);
            lines.insert(random.place(lines.len() + 1), line);
        }),
    }
}

/// A comment of this many bytes, at times without its mark or its line feed.
fn long_line(random: &mut Random, bytes: usize) -> Vec<u8> {
    let mut line = comment_of(bytes);
    line[0] = random.pick(b"CX");
    if random.one_in(4) {
        line.pop();
    }
    line
}

/// Edits a text that has lines.
fn edit_lines(
    random: &mut Random,
    text: &mut Vec<u8>,
    edit: impl Fn(&mut Random, &mut Vec<Vec<u8>>),
) {
    let mut lines = lines(text);
    if !lines.is_empty() {
        edit(random, &mut lines);
        *text = lines.concat();
    }
}

fn repeat_last_arc(lines: &mut Vec<Vec<u8>>, arcs: usize) {
    let is_arc = |line: &Vec<u8>| line.starts_with(b"AR");
    let present = lines.iter().filter(|line| is_arc(line)).count();
    if let Some(last) = lines.iter().rposition(is_arc) {
        let more = vec![lines[last].clone(); arcs.saturating_sub(present)];
        lines.splice(last..last, more);
    }
}

/// Replaces, removes or doubles one field of one line.
fn damage_field(random: &mut Random, lines: &mut [Vec<u8>]) {
    // The first lines hold the most rules, so they are taken often.
    let place = random
        .index(lines.len())
        .min(random.pick(&[0, 1, 2, usize::MAX]));
    edit_fields(random, &mut lines[place], |random, fields| {
        let field = random.index(fields.len());
        match random.below(6) {
            0 => drop(fields.remove(field)),
            1 => fields.insert(field, fields[field]),
            _ => fields[field] = random.pick(&BOUNDARY_FIELDS).as_bytes(),
        }
    });
}

/// Holds just inside and just outside the limit, and ends of a line that are none. Some
/// would be within the limit if they lost bits.
#[rustfmt::skip]
const HOLDS: [&str; 20] = [
    "0", "1", "7", "1199", "1200", "1201", "1202", "2048", "9999", "65535", "65536", "66736",
    "9999999", "10000000", "00", "01200", "", "0 ", "-1", "0\r",
];

/// Damages what the two forms differ in: the counts' mark and the arcs' last number.
fn damage_form(random: &mut Random, lines: &mut Vec<Vec<u8>>) {
    match random.below(8) {
        0 => {
            if let Some(counts) = lines.iter_mut().find(|line| is_counts(line)) {
                turn_mark(counts);
            }
        }
        1 | 2 => add_counts(random, lines),
        3 => edit_arc_end(random, lines, |_, fields| fields.truncate(fields.len() - 1)),
        4 => edit_arc_end(random, lines, |_, fields| fields.push(b"0")),
        _ => edit_arc_end(random, lines, |random, fields| {
            fields.pop();
            fields.push(random.pick(&HOLDS).as_bytes());
        }),
    }
}

fn is_counts(line: &[u8]) -> bool {
    line.starts_with(b"TN") || line.starts_with(b"TW")
}

/// Makes the mark that of the other form.
fn turn_mark(counts: &mut [u8]) {
    counts[1] = if counts[1] == b'N' { b'W' } else { b'N' };
}

/// Puts the counts in once more, mostly with the other form's mark.
fn add_counts(random: &mut Random, lines: &mut Vec<Vec<u8>>) {
    if let Some(counts) = lines.iter().find(|line| is_counts(line)) {
        let mut counts = counts.clone();
        if !random.one_in(4) {
            turn_mark(&mut counts);
        }
        lines.insert(random.place(lines.len() + 1), counts);
    }
}

/// Edits the fields of one arc, its mark counted.
fn edit_arc_end(
    random: &mut Random,
    lines: &mut [Vec<u8>],
    edit: impl Fn(&mut Random, &mut Vec<&[u8]>),
) {
    let is_arc = |&place: &usize| lines[place].starts_with(b"AR");
    let arcs: Vec<usize> = (0..lines.len()).filter(is_arc).collect();
    if !arcs.is_empty() {
        let place = arcs[random.place(arcs.len())];
        edit_fields(random, &mut lines[place], edit);
    }
}

/// Edits the fields of a line, its mark counted.
fn edit_fields(
    random: &mut Random,
    line: &mut Vec<u8>,
    edit: impl Fn(&mut Random, &mut Vec<&[u8]>),
) {
    let present = line.trim_ascii_end();
    let mut fields: Vec<&[u8]> = present.split(|&byte| byte == b' ').collect();
    edit(random, &mut fields);
    let mut edited = fields.join(&b' ');
    edited.push(b'\n');
    *line = edited;
}

fn damage_lines(random: &mut Random, lines: &mut Vec<Vec<u8>>) {
    let one = random.index(lines.len());
    let other = random.index(lines.len());
    match random.below(8) {
        0 => lines.truncate(random.index(4)),
        1 => lines.swap(one, other),
        2 => drop(lines.remove(one)),
        3 => lines.insert(one, lines[one].clone()),
        4 => lines.insert(one, lines[other].clone()),
        _ => lines.insert(one, [random.pick(&BOUNDARY_LINES), b"\n"].concat()),
    }
}
