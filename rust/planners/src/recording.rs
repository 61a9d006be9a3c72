//! Recorded frames, read from text.
//!
//! Each line has one frame in hex. Spaces may stand anywhere, `#` begins a comment
//! that goes on to the end of the line, and lines without a digit are skipped.
//!
//! A recording has requests alone. No bit tells a reply from a request (PROFILE
//! 3), so a reply in a recording is taken for a request.

/// A recorded frame, and where it was.
#[derive(Clone, Debug, PartialEq, Eq)]
pub struct Recorded {
    /// The line of the recording, counted from 1.
    pub line: usize,
    /// The bytes, which may or may not be a frame to the agent.
    pub frame: Vec<u8>,
}

/// The frames of a recording, in their order.
///
/// # Errors
///
/// A sentence with the first line that is not hex, and why.
///
/// ```
/// use planners::recording::{read, Recorded};
///
/// let text = "# a query\n\n2980 000a 0101010101 0101010101 # under 01\n";
/// let frame = [&[0x29, 0x80, 0, 10][..], &[1; 10]].concat();
/// assert_eq!(read(text), Ok(vec![Recorded { line: 3, frame }]));
/// ```
pub fn read(text: &str) -> Result<Vec<Recorded>, String> {
    let mut recorded = Vec::new();
    for (line, content) in (1..).zip(text.lines()) {
        let hex = content.split('#').next().unwrap_or("");
        let frame = bytes(hex).map_err(|why| format!("line {line}: {why}"))?;
        if !frame.is_empty() {
            recorded.push(Recorded { line, frame });
        }
    }
    Ok(recorded)
}

/// The bytes of hex digits, with spaces anywhere.
fn bytes(hex: &str) -> Result<Vec<u8>, String> {
    let digit = |c: char| match c.to_digit(16) {
        Some(digit) => Ok(digit as u8),
        None => Err(format!("{c:?} is no hex digit")),
    };
    let digits = hex.chars().filter(|c| !c.is_whitespace()).map(digit);
    let digits: Vec<u8> = digits.collect::<Result<_, _>>()?;
    if digits.len() % 2 == 1 {
        return Err("an odd number of hex digits, where two make a byte".to_owned());
    }
    let pairs = digits.chunks_exact(2);
    Ok(pairs.map(|pair| pair[0] << 4 | pair[1]).collect())
}
