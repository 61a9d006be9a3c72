//! Recorded frames are read from text, and what is no hex is named by its line.

use planners::recording::{read, Recorded};

fn frames(text: &str) -> Vec<(usize, Vec<u8>)> {
    let recorded = read(text).expect("it is hex");
    let parts = |Recorded { line, frame }| (line, frame);
    recorded.into_iter().map(parts).collect()
}

#[test]
fn a_line_is_a_frame_with_or_without_spaces() {
    for text in [
        "2580000a",
        "25 80 00 0a\n",
        "  2 5\t80 000A  \n",
        "25 80 00 0a\r\n",
        "25 80 00 0A# in capitals",
    ] {
        assert_eq!(frames(text), [(1, vec![0x25, 0x80, 0, 10])], "{text:?}");
    }
}

#[test]
fn comments_and_blank_lines_are_skipped_and_counted() {
    let text = "# a recording\n\n   \n25\n  # 26\n27 # and # more\n#";
    assert_eq!(frames(text), [(4, vec![0x25]), (6, vec![0x27])]);
    assert_eq!(frames(""), []);
    assert_eq!(frames("\n# nothing\n"), []);
}

#[test]
fn the_first_bad_line_is_named() {
    for (text, mistake) in [
        ("25 8g\n", "line 1: 'g' is no hex digit"),
        ("25\n\n# xyz\n0x25\nzz\n", "line 4: 'x' is no hex digit"),
        (
            "25 8\n",
            "line 1: an odd number of hex digits, where two make a byte",
        ),
        (
            "25\n1\n",
            "line 2: an odd number of hex digits, where two make a byte",
        ),
        ("25 \u{665}0\n", "line 1: '\u{665}' is no hex digit"),
        ("25 -1\n", "line 1: '-' is no hex digit"),
    ] {
        assert_eq!(read(text), Err(mistake.to_owned()), "{text:?}");
    }
}

/// Bytes of any length are a recorded call: whether they are a frame is for the
/// agent to say.
#[test]
fn long_and_short_bytes_are_read() {
    let long = "ff".repeat(70_000);
    assert_eq!(frames(&long), [(1, vec![0xFF; 70_000])]);
    assert_eq!(frames("00"), [(1, vec![0])]);
}
