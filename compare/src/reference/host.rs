use super::closures::ClosedArcs;
use super::limits::REFUSED;
use super::load::Town;
use super::route::reach;
use super::{LoadRefusal, Refusal};

/// The destination's label, or the coded number of a refusal.
pub fn host_question(text: &[u8], source: u32, departure: u32, destination: u32) -> u32 {
    answer(text, source, departure, destination).unwrap_or_else(|refusal| REFUSED + refusal.0)
}

fn answer(text: &[u8], source: u32, departure: u32, destination: u32) -> Result<u32, Refusal> {
    let town = Town::read(text).map_err(|LoadRefusal { refusal, .. }| refusal)?;
    let closed = ClosedArcs::none();
    let reached = reach(&town.network(), closed, source, departure, destination)?;
    Ok(reached.label)
}

#[cfg(test)]
mod tests {
    use super::*;
    use crate::inputs::examples::{HELD_TOWN_TEXT, TOWN_TEXT};

    const TOWN: &[u8] = TOWN_TEXT.as_bytes();

    #[test]
    fn answers_with_the_label() {
        assert_eq!(host_question(TOWN, 0, 10, 2), 100);
        assert_eq!(host_question(TOWN, 2, 863_999, 2), 863_999);
        // By arcs 0 and 2, and then the hold.
        assert_eq!(host_question(HELD_TOWN_TEXT.as_bytes(), 0, 10, 2), 117);
    }

    #[test]
    fn codes_each_refusal() {
        assert_eq!(host_question(&[b'\n'; 65_537], 9, 864_000, 9), REFUSED + 20);
        assert_eq!(host_question(&TOWN[..20], 9, 864_000, 9), REFUSED + 21);
        assert_eq!(host_question(b"", 9, 864_000, 9), REFUSED + 27);
        assert_eq!(host_question(TOWN, 3, 864_000, 3), REFUSED + 9);
        assert_eq!(host_question(TOWN, 2, 864_000, 3), REFUSED + 10);
        assert_eq!(host_question(TOWN, 2, 0, 3), REFUSED + 12);
        assert_eq!(host_question(TOWN, 2, 0, 1), REFUSED + 13);
    }
}
