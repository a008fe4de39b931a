//! The bytes around an offset, with the one at the offset marked.

/// How many bytes are shown on either side of the marked one.
const AROUND: usize = 8;

/// Two lines: the bytes around the offset in hexadecimal, after the first one's offset, and a mark
/// under the byte at the offset, with a note behind it.
///
/// An offset may be the image's length: a missing byte has the place where it would stand.
pub fn window(image: &[u8], offset: usize, note: &str) -> String {
    let first = offset.saturating_sub(AROUND);
    let end = image.len().min(offset + AROUND + 1);
    let bytes: String = image[first..end].iter().map(|byte| format!(" {byte:02X}")).collect();
    let more = if end < image.len() { " .." } else { "" };
    let missing = if offset == image.len() { " --" } else { "" };
    let start = format!("{first:>7}:");
    let indent = " ".repeat(start.len() + 3 * (offset - first));
    format!("{start}{bytes}{more}{missing}\n{indent} ^^ {offset}: {note}\n")
}

#[cfg(test)]
mod tests {
    use super::*;

    /// The bytes 0, 1, 2 and so on.
    fn counting(length: u8) -> Vec<u8> {
        (0..length).collect()
    }

    #[test]
    fn in_the_middle_there_are_eight_bytes_on_either_side() {
        let shown = window(&counting(40), 20, "here");
        let expected = concat!(
            "     12: 0C 0D 0E 0F 10 11 12 13 14 15 16 17 18 19 1A 1B 1C ..\n",
            "                                 ^^ 20: here\n"
        );
        assert_eq!(shown, expected);
    }

    #[test]
    fn at_the_start_there_are_none_before() {
        let shown = window(&counting(40), 0, "here");
        let expected = concat!(
            "      0: 00 01 02 03 04 05 06 07 08 ..\n", //
            "         ^^ 0: here\n"
        );
        assert_eq!(shown, expected);
    }

    #[test]
    fn at_the_last_byte_nothing_follows() {
        let expected = concat!(
            "      0: 00 01 02 03\n", //
            "                  ^^ 3: here\n"
        );
        assert_eq!(window(&counting(4), 3, "here"), expected);
    }

    #[test]
    fn past_the_last_byte_a_missing_one_is_marked() {
        let expected = concat!(
            "      0: 00 01 02 --\n", //
            "                  ^^ 3: here\n"
        );
        assert_eq!(window(&counting(3), 3, "here"), expected);
    }

    #[test]
    fn of_an_empty_image_only_the_missing_byte_is_there() {
        let expected = concat!(
            "      0: --\n", //
            "         ^^ 0: here\n"
        );
        assert_eq!(window(&[], 0, "here"), expected);
    }
}
