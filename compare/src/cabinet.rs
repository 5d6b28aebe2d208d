//! The verified library's functions, with the reference's signatures.
//!
//! All `unsafe` of the package stands here. A lent slice crosses the boundary
//! as its pointer and its length, a lent array as its pointer; the library
//! keeps neither after the call.

use crate::reference::limits::REFUSED;
use crate::reference::{Arrival, Closure, Counts, Lists, LoadRefusal, Network, Refusal, Versions};

mod exports {
    use crate::reference::Closure;

    unsafe extern "C" {
        pub fn exports_network_check(
            junctions: u32,
            fences: *const u32,
            fence_count: usize,
            tails: *const u16,
            tail_count: usize,
            heads: *const u16,
            head_count: usize,
            lengths: *const u32,
            length_count: usize,
            holds: *const u16,
            hold_count: usize,
            speeds: *const u8,
            speed_count: usize,
        ) -> u32;

        pub fn exports_arc_arrival(
            departure: u32,
            interval: u32,
            length: u32,
            hold: u32,
            fences: *const u32,
            fence_count: usize,
            speeds: *const u8,
            speed_count: usize,
        ) -> u64;

        pub fn exports_labels(
            junctions: u32,
            fences: *const u32,
            fence_count: usize,
            tails: *const u16,
            tail_count: usize,
            heads: *const u16,
            head_count: usize,
            lengths: *const u32,
            length_count: usize,
            holds: *const u16,
            hold_count: usize,
            speeds: *const u8,
            speed_count: usize,
            closures: *const Closure,
            closure_count: usize,
            asker: u32,
            source: u32,
            departure: u32,
            labels: *mut u32,
            label_count: usize,
            predecessors: *mut u16,
            predecessor_count: usize,
        ) -> u32;

        pub fn exports_passes(
            junctions: u32,
            fences: *const u32,
            fence_count: usize,
            tails: *const u16,
            tail_count: usize,
            heads: *const u16,
            head_count: usize,
            lengths: *const u32,
            length_count: usize,
            holds: *const u16,
            hold_count: usize,
            speeds: *const u8,
            speed_count: usize,
            closures: *const Closure,
            closure_count: usize,
            asker: u32,
            source: u32,
            departure: u32,
            labels: *mut u32,
            label_count: usize,
            predecessors: *mut u16,
            predecessor_count: usize,
        ) -> u32;

        pub fn exports_tables_check(
            junctions: u32,
            fences: *const u32,
            fence_count: usize,
            tails: *const u16,
            tail_count: usize,
            heads: *const u16,
            head_count: usize,
            lengths: *const u32,
            length_count: usize,
            holds: *const u16,
            hold_count: usize,
            speeds: *const u8,
            speed_count: usize,
            closures: *const Closure,
            closure_count: usize,
            asker: u32,
            source: u32,
            departure: u32,
            labels: *const u32,
            label_count: usize,
            predecessors: *const u16,
            predecessor_count: usize,
        ) -> u32;

        pub fn exports_route(
            junctions: u32,
            fences: *const u32,
            fence_count: usize,
            tails: *const u16,
            tail_count: usize,
            heads: *const u16,
            head_count: usize,
            lengths: *const u32,
            length_count: usize,
            holds: *const u16,
            hold_count: usize,
            speeds: *const u8,
            speed_count: usize,
            closures: *const Closure,
            closure_count: usize,
            asker: u32,
            source: u32,
            departure: u32,
            destination: u32,
            arcs: *mut u16,
            arc_count: usize,
        ) -> u32;

        pub fn exports_sheet(
            junctions: u32,
            fences: *const u32,
            fence_count: usize,
            tails: *const u16,
            tail_count: usize,
            heads: *const u16,
            head_count: usize,
            lengths: *const u32,
            length_count: usize,
            holds: *const u16,
            hold_count: usize,
            speeds: *const u8,
            speed_count: usize,
            closures: *const Closure,
            closure_count: usize,
            asker: u32,
            source: u32,
            departures: *const u32,
            departure_count: usize,
            labels: *mut u32,
            label_count: usize,
            figures: *mut u32,
            figure_count: usize,
        ) -> u32;

        pub fn exports_load(
            text: *const u8,
            text_length: usize,
            fences: *mut u32,
            fence_count: usize,
            tails: *mut u16,
            tail_count: usize,
            heads: *mut u16,
            head_count: usize,
            lengths: *mut u32,
            length_count: usize,
            holds: *mut u16,
            hold_count: usize,
            speeds: *mut u8,
            speed_count: usize,
        ) -> u64;

        pub fn exports_to_new(
            text: *const u8,
            text_length: usize,
            output: *mut u8,
            output_length: usize,
        ) -> u64;

        pub fn exports_to_old(
            text: *const u8,
            text_length: usize,
            output: *mut u8,
            output_length: usize,
        ) -> u64;

        pub fn exports_name(text: *const u8, text_length: usize, junction: u32) -> u64;

        pub fn exports_week_new(
            masks: *const u8,
            mask_count: usize,
            versions: *mut u16,
            lists: *mut u8,
        ) -> u32;

        pub fn exports_week_change(
            masks: *const u8,
            mask_count: usize,
            versions: *mut u16,
            lists: *mut u8,
        ) -> u32;

        pub fn exports_week_plan(
            versions: *const u16,
            lists: *const u8,
            version: u32,
            day: u32,
        ) -> u32;

        pub fn cabinet_host_question(
            text: *const u8,
            text_length: usize,
            source: u32,
            departure: u32,
            destination: u32,
        ) -> u32;
    }
}

/// Calls a function whose parameters begin with a network, and then go on.
macro_rules! on_network {
    ($function:ident, $network:expr, $($argument:expr,)*) => {
        exports::$function(
            $network.junctions,
            $network.fences.as_ptr(),
            $network.fences.len(),
            $network.tails.as_ptr(),
            $network.tails.len(),
            $network.heads.as_ptr(),
            $network.heads.len(),
            $network.lengths.as_ptr(),
            $network.lengths.len(),
            $network.holds.as_ptr(),
            $network.holds.len(),
            $network.speeds.as_ptr(),
            $network.speeds.len(),
            $($argument,)*
        )
    };
}

/// Set in an answer of Load or of a converter when it is a refusal.
const TEXT_REFUSED: u64 = 1 << 63;

/// The upper halves of Arc arrival's answers that are not an interval.
const ARC_REFUSED: u32 = 1 << 31;
const NOT_DRIVEN: u32 = 1 << 30;

pub fn network_check(network: &Network) -> Result<(), Refusal> {
    // SAFETY: each pointer and length belong to one slice lent for the call.
    let answer = unsafe { on_network!(exports_network_check, network,) };
    accepted(answer)
}

pub fn arc_arrival(
    departure: u32,
    interval: u32,
    length: u32,
    hold: u32,
    fences: &[u32],
    speeds: &[u8],
) -> Result<Option<Arrival>, Refusal> {
    // SAFETY: each pointer and length belong to one slice lent for the call.
    let answer = unsafe {
        exports::exports_arc_arrival(
            departure,
            interval,
            length,
            hold,
            fences.as_ptr(),
            fences.len(),
            speeds.as_ptr(),
            speeds.len(),
        )
    };
    decoded_arrival(answer)
}

pub fn labels(
    network: &Network,
    closures: &[Closure],
    asker: u32,
    source: u32,
    departure: u32,
    labels: &mut [u32],
    predecessors: &mut [u16],
) -> Result<(), Refusal> {
    // SAFETY: each pointer and length belong to one slice lent for the call,
    // the last two for writing and to nobody else.
    let answer = unsafe {
        on_network!(
            exports_labels,
            network,
            closures.as_ptr(),
            closures.len(),
            asker,
            source,
            departure,
            labels.as_mut_ptr(),
            labels.len(),
            predecessors.as_mut_ptr(),
            predecessors.len(),
        )
    };
    accepted(answer)
}

pub fn passes(
    network: &Network,
    closures: &[Closure],
    asker: u32,
    source: u32,
    departure: u32,
    labels: &mut [u32],
    predecessors: &mut [u16],
) -> Result<u32, Refusal> {
    // SAFETY: each pointer and length belong to one slice lent for the call,
    // the last two for writing and to nobody else.
    let answer = unsafe {
        on_network!(
            exports_passes,
            network,
            closures.as_ptr(),
            closures.len(),
            asker,
            source,
            departure,
            labels.as_mut_ptr(),
            labels.len(),
            predecessors.as_mut_ptr(),
            predecessors.len(),
        )
    };
    decoded(answer)
}

pub fn tables_check(
    network: &Network,
    closures: &[Closure],
    asker: u32,
    source: u32,
    departure: u32,
    labels: &[u32],
    predecessors: &[u16],
) -> Result<bool, Refusal> {
    // SAFETY: each pointer and length belong to one slice lent for the call.
    let answer = unsafe {
        on_network!(
            exports_tables_check,
            network,
            closures.as_ptr(),
            closures.len(),
            asker,
            source,
            departure,
            labels.as_ptr(),
            labels.len(),
            predecessors.as_ptr(),
            predecessors.len(),
        )
    };
    decoded_yes_or_no(answer)
}

pub fn route(
    network: &Network,
    closures: &[Closure],
    asker: u32,
    source: u32,
    departure: u32,
    destination: u32,
    arcs: &mut [u16],
) -> Result<u32, Refusal> {
    // SAFETY: each pointer and length belong to one slice lent for the call,
    // the last for writing and to nobody else.
    let answer = unsafe {
        on_network!(
            exports_route,
            network,
            closures.as_ptr(),
            closures.len(),
            asker,
            source,
            departure,
            destination,
            arcs.as_mut_ptr(),
            arcs.len(),
        )
    };
    decoded(answer)
}

pub fn sheet(
    network: &Network,
    closures: &[Closure],
    asker: u32,
    source: u32,
    departures: &[u32],
    labels: &mut [u32],
    figures: &mut [u32],
) -> Result<(), Refusal> {
    // SAFETY: each pointer and length belong to one slice lent for the call,
    // the last two for writing and to nobody else.
    let answer = unsafe {
        on_network!(
            exports_sheet,
            network,
            closures.as_ptr(),
            closures.len(),
            asker,
            source,
            departures.as_ptr(),
            departures.len(),
            labels.as_mut_ptr(),
            labels.len(),
            figures.as_mut_ptr(),
            figures.len(),
        )
    };
    accepted(answer)
}

pub fn load(
    text: &[u8],
    fences: &mut [u32],
    tails: &mut [u16],
    heads: &mut [u16],
    lengths: &mut [u32],
    holds: &mut [u16],
    speeds: &mut [u8],
) -> Result<Counts, LoadRefusal> {
    // SAFETY: each pointer and length belong to one slice lent for the call,
    // all but the text for writing and to nobody else.
    let answer = unsafe {
        exports::exports_load(
            text.as_ptr(),
            text.len(),
            fences.as_mut_ptr(),
            fences.len(),
            tails.as_mut_ptr(),
            tails.len(),
            heads.as_mut_ptr(),
            heads.len(),
            lengths.as_mut_ptr(),
            lengths.len(),
            holds.as_mut_ptr(),
            holds.len(),
            speeds.as_mut_ptr(),
            speeds.len(),
        )
    };
    let (arcs, low) = halves(decoded_text_answer(answer)?);
    Ok(Counts {
        junctions: low & 0xffff,
        intervals: low >> 16,
        arcs,
    })
}

pub fn to_new(text: &[u8], output: &mut [u8]) -> Result<usize, LoadRefusal> {
    // SAFETY: each pointer and length belong to one slice lent for the call,
    // the output for writing and to nobody else.
    let answer = unsafe {
        exports::exports_to_new(text.as_ptr(), text.len(), output.as_mut_ptr(), output.len())
    };
    decoded_text_answer(answer).map(|length| length as usize)
}

pub fn to_old(text: &[u8], output: &mut [u8]) -> Result<usize, LoadRefusal> {
    // SAFETY: each pointer and length belong to one slice lent for the call,
    // the output for writing and to nobody else.
    let answer = unsafe {
        exports::exports_to_old(text.as_ptr(), text.len(), output.as_mut_ptr(), output.len())
    };
    decoded_text_answer(answer).map(|length| length as usize)
}

pub fn name(text: &[u8], junction: u32) -> &[u8] {
    // SAFETY: the pointer and length belong to the text lent for the call.
    let answer = unsafe { exports::exports_name(text.as_ptr(), text.len(), junction) };
    let (start, length) = halves(answer);
    &text[start as usize..][..length as usize]
}

pub fn week_new(masks: &[u8], versions: &mut Versions, lists: &mut Lists) -> Result<u32, Refusal> {
    // SAFETY: the first pointer and length belong to one slice lent for the call; the others
    // are those of arrays of the agreed lengths, for writing and to nobody else.
    let answer = unsafe {
        exports::exports_week_new(
            masks.as_ptr(),
            masks.len(),
            versions.as_mut_ptr(),
            lists.as_mut_ptr(),
        )
    };
    decoded(answer)
}

pub fn week_change(
    masks: &[u8],
    versions: &mut Versions,
    lists: &mut Lists,
) -> Result<u32, Refusal> {
    // SAFETY: the first pointer and length belong to one slice lent for the call; the others
    // are those of arrays of the agreed lengths, for writing and to nobody else.
    let answer = unsafe {
        exports::exports_week_change(
            masks.as_ptr(),
            masks.len(),
            versions.as_mut_ptr(),
            lists.as_mut_ptr(),
        )
    };
    decoded(answer)
}

pub fn week_plan(
    versions: &Versions,
    lists: &Lists,
    version: u32,
    day: u32,
) -> Result<u32, Refusal> {
    // SAFETY: each pointer is that of an array of the agreed length lent for the call.
    let answer =
        unsafe { exports::exports_week_plan(versions.as_ptr(), lists.as_ptr(), version, day) };
    decoded(answer)
}

pub fn host_question(text: &[u8], source: u32, departure: u32, destination: u32) -> u32 {
    // SAFETY: the pointer and length belong to the text lent for the call.
    unsafe {
        exports::cabinet_host_question(text.as_ptr(), text.len(), source, departure, destination)
    }
}

/// Reads an answer that is 0 or a refusal's number.
fn accepted(answer: u32) -> Result<(), Refusal> {
    match answer {
        0 => Ok(()),
        number => Err(Refusal(number)),
    }
}

/// Reads an answer that is a value or a refusal's number above `REFUSED`.
fn decoded(answer: u32) -> Result<u32, Refusal> {
    match answer.checked_sub(REFUSED) {
        None => Ok(answer),
        Some(number) => Err(Refusal(number)),
    }
}

/// Reads an answer that is 1 for yes, 0 for no, or a refusal's number above `REFUSED`. One
/// that is none of these gives a number that no refusal has, so that a comparison sees it.
fn decoded_yes_or_no(answer: u32) -> Result<bool, Refusal> {
    match answer {
        0 => Ok(false),
        1 => Ok(true),
        _ => Err(Refusal(answer.wrapping_sub(REFUSED))),
    }
}

/// Reads an answer that is a value or a refusal's number and line.
fn decoded_text_answer(answer: u64) -> Result<u64, LoadRefusal> {
    if answer & TEXT_REFUSED == 0 {
        return Ok(answer);
    }
    let (number, line) = halves(answer & !TEXT_REFUSED);
    Err(LoadRefusal {
        refusal: Refusal(number),
        line,
    })
}

/// Reads an answer of Arc arrival. One that is none of the three forms gives an
/// interval that no plan has, so that a comparison sees it.
fn decoded_arrival(answer: u64) -> Result<Option<Arrival>, Refusal> {
    match halves(answer) {
        (ARC_REFUSED, number) => Err(Refusal(number)),
        (NOT_DRIVEN, 0) => Ok(None),
        (interval, tick) => Ok(Some(Arrival { tick, interval })),
    }
}

fn halves(answer: u64) -> (u32, u32) {
    ((answer >> 32) as u32, answer as u32)
}

#[cfg(test)]
mod tests {
    use std::mem::offset_of;

    use super::*;

    #[test]
    fn lends_records_of_four_numbers() {
        assert_eq!(size_of::<Closure>(), 16);
        assert_eq!(align_of::<Closure>(), 4);
        assert_eq!(offset_of!(Closure, arc), 0);
        assert_eq!(offset_of!(Closure, first), 4);
        assert_eq!(offset_of!(Closure, end), 8);
        assert_eq!(offset_of!(Closure, party), 12);
    }

    #[test]
    fn reads_arc_arrivals_answers() {
        let arrival = |tick, interval| Ok(Some(Arrival { tick, interval }));
        assert_eq!(decoded_arrival(1_728_000), arrival(1_728_000, 0));
        assert_eq!(decoded_arrival((95 << 32) + 7), arrival(7, 95));
        assert_eq!(decoded_arrival(1 << 62), Ok(None));
        assert_eq!(decoded_arrival((1 << 63) + 46), Err(Refusal(46)));
        // None of the three forms.
        assert_eq!(decoded_arrival((1 << 62) + 7), arrival(7, 1 << 30));
        assert_eq!(decoded_arrival((3 << 62) + 7), arrival(7, 3 << 30));
    }

    #[test]
    fn reads_yes_and_no() {
        assert_eq!(decoded_yes_or_no(1), Ok(true));
        assert_eq!(decoded_yes_or_no(0), Ok(false));
        assert_eq!(decoded_yes_or_no(4_294_900_011), Err(Refusal(11)));
        // None of the three forms.
        assert_eq!(decoded_yes_or_no(2), Err(Refusal(67_298)));
        assert_eq!(decoded_yes_or_no(11), Err(Refusal(67_307)));
        assert_eq!(decoded_yes_or_no(4_294_899_999), Err(Refusal(u32::MAX)));
    }

    #[test]
    fn reads_answers_about_texts() {
        assert_eq!(decoded_text_answer(65_536), Ok(65_536));
        let refused = LoadRefusal {
            refusal: Refusal(27),
            line: 3,
        };
        let answer = (1 << 63) + (27 << 32) + 3;
        assert_eq!(decoded_text_answer(answer), Err(refused));
        // No length; a comparison sees it.
        assert_eq!(decoded_text_answer(1 << 62), Ok(1 << 62));
    }
}
