//! Spellings of Rust that the script reads: numbers, comments, attributes, lifetimes and visibility.
#![allow(dead_code)]

/* The derives are imported, or have a path. */
use asn1::{Asn1Read, Asn1Write};

/// Fields in many spellings.
#[derive(Asn1Read, asn1::Asn1Write, Copy, Default, Hash)]
#[allow(missing_docs)]
pub(crate) struct Spelled<'b> { //~ `Copy`, which `items` lacks; `Default`, which isn't kept; `Hash`, which `text` lacks
    #[doc = " Sixteen octets."]
    pub(crate) hash: [u8; 1_6],
    /// At least one number, and at most four.
    pub items: asn1::SequenceOf<'b, u8, 1, { 4 }>,
    /// Any number of numbers, from two on.
    #[name("any-number")]
    #[implicit(0x1f, required = false)]
    pub(in crate::spellings) more: Option<asn1::SequenceOf<'b, u8, 0b10, { usize::MAX }>>,
    #[implicit(1_0)]
    #[default(-128)]
    low: i8,
    #[explicit(4)]
    #[default(2_55u8)]
    high: u8,
    text: asn1::IA5String<'b>
}


/// A number that is only read.
#[derive(Asn1Read)]
pub struct Received {
    pub number: u8,
}

/// A number that is only written.
#[derive(Asn1Write)]
pub struct Sent {
    pub number: u8,
}
