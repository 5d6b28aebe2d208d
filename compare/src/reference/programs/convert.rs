use super::printed;
use crate::reference::limits::MAX_TEXT;
use crate::reference::{LoadRefusal, to_new, to_old};

/// What the program `to_new` prints for this standard input.
pub fn to_new_text(input: &[u8]) -> Vec<u8> {
    printed(result(to_new, input))
}

/// What the program `to_old` prints for this standard input.
pub fn to_old_text(input: &[u8]) -> Vec<u8> {
    printed(result(to_old, input))
}

fn result(
    converter: fn(&[u8], &mut [u8]) -> Result<usize, LoadRefusal>,
    input: &[u8],
) -> Result<Vec<u8>, LoadRefusal> {
    let mut output = vec![0; MAX_TEXT];
    let length = converter(input, &mut output)?;
    output.truncate(length);
    Ok(output)
}

#[cfg(test)]
mod tests {
    use super::*;
    use crate::inputs::texts::pad;

    const OLD: &[u8] = b"TN 2 1\nFN 0\nAR 0 1 5 36\n";
    const NEW: &[u8] = b"TW 2 1\nFN 0\nAR 0 1 5 36 0\n";

    #[test]
    fn print_the_result_or_the_refusal() {
        assert_eq!(to_new_text(OLD), NEW);
        assert_eq!(to_old_text(NEW), OLD);
        assert_eq!(to_new_text(NEW), b"refused 33 line 0\n");
        assert_eq!(to_old_text(OLD), b"refused 33 line 0\n");
        let held = b"TW 2 1\nFN 0\nAR 0 1 5 36 9\n";
        assert_eq!(to_old_text(held), b"refused 34 line 0\n");
        for program in [to_new_text, to_old_text] {
            assert_eq!(program(b""), b"refused 27 line 1\n");
            assert_eq!(program(b"QU 0 0\nTN 2 1\nFN 0\n"), b"refused 23 line 1\n");
            assert_eq!(program(&[b'\n'; 65_537]), b"refused 20 line 0\n");
        }
    }

    #[test]
    fn print_a_result_up_to_its_limit() {
        let mut text = OLD.to_vec();
        pad(&mut text, 65_534);
        assert_eq!(to_new_text(&text).len(), 65_536);
        let mut text = OLD.to_vec();
        pad(&mut text, 65_535);
        assert_eq!(to_new_text(&text), b"refused 35 line 0\n");
    }
}
