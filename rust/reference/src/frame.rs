//! The head that requests and replies have in common.
//!
//! Both begin with a byte of three version bits and five kind bits, then have
//! a byte of their own, then the body's length in 16 bits, then the body
//! (PROFILE 3.1, 3.2).

use crate::bytes::u16_at;

/// The one version there is.
const VERSION: u8 = 1;

/// The bits of byte 0 that hold the kind.
const KIND_BITS: u8 = 0b0001_1111;

/// The bytes before the body.
const HEAD_BYTES: usize = 4;

/// A frame taken apart, with nothing tested but its length.
#[derive(Clone, Copy, Debug)]
pub(crate) struct Frame<'a> {
    first: u8,
    /// The byte after version and kind: verdict and zero bits in a request,
    /// the status in a reply.
    pub second: u8,
    pub body: &'a [u8],
}

impl<'a> Frame<'a> {
    /// Takes `bytes` apart; `None` where there are fewer than 4, or not as many
    /// as 4 and the body's length.
    pub fn split(bytes: &'a [u8]) -> Option<Self> {
        let (head, body) = bytes.split_at_checked(HEAD_BYTES)?;
        (body.len() == usize::from(u16_at(head, 2))).then_some(Frame {
            first: head[0],
            second: head[1],
            body,
        })
    }

    /// Whether the version is the one there is.
    pub fn version_is_right(&self) -> bool {
        self.first >> 5 == VERSION
    }

    /// The five bits of the kind, whatever they are.
    pub fn kind_bits(&self) -> u8 {
        kind_bits(self.first)
    }
}

/// The five bits of the kind in the first byte of a frame.
pub(crate) fn kind_bits(first: u8) -> u8 {
    first & KIND_BITS
}

/// The bytes of a frame of version 1; `kind_bits` is under 32.
pub(crate) fn join(kind_bits: u8, second: u8, body: &[u8]) -> Vec<u8> {
    let length = u16::try_from(body.len()).expect("no body has more than 4,285 bytes");
    let mut frame = Vec::with_capacity(HEAD_BYTES + body.len());
    frame.push(VERSION << 5 | kind_bits);
    frame.push(second);
    frame.extend(length.to_be_bytes());
    frame.extend(body);
    frame
}
