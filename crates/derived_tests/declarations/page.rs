//! Structures and choices: each attribute of the original's derives for them, once.

use asn1::{Asn1Read, Asn1Write};

/// Two numbers, by plain names.
#[derive(Asn1Read, Asn1Write, Clone, Copy, PartialEq)]
pub struct Signature {
    /// The first.
    pub r: u64,
    /// The second.
    pub s: u64,
}

/// No fields.
#[derive(Asn1Read, Asn1Write, PartialEq)]
pub struct Nothing {}

/// Fields with tags and defaults.
#[derive(asn1::Asn1Read, asn1::Asn1Write, Clone, PartialEq)]
pub struct Tagged<'a> {
    /// The version, 1 by default.
    #[explicit(2)]
    #[default(1u8)]
    pub version: u8,
    /// Numbers under a tag in place of the list's own.
    #[implicit(3, required = true)]
    pub numbers: asn1::SequenceOf<'a, i32, 1, 4>,
    /// A signature under a tag around its own.
    #[explicit(4, required = true)]
    pub signature: Signature,
    /// A number under a tag in place of its own, -1 by default.
    #[implicit(5)]
    #[default(-1)]
    pub level: i8,
}

/// Strings, in the order of a set.
pub type Strings<'a> = asn1::SetOf<'a, asn1::PrintableString<'a>>;

/// Who answers (RFC 6960, 4.2.1).
#[derive(asn1::Asn1Read, asn1::Asn1Write, Debug, Clone, PartialEq, Eq, Hash)]
pub enum ResponderId<'a> {
    /// By name.
    #[explicit(1)]
    ByName(Strings<'a>),
    /// By the hash of a key.
    #[explicit(2)]
    ByKey(&'a [u8]),
}

/// Who may answer: the list has no tag but its own, and is one of choices that hold lists.
#[derive(asn1::Asn1Read, asn1::Asn1Write)]
pub enum Responders<'a> {
    /// Each by itself.
    Listed(asn1::SequenceOf<'a, ResponderId<'a>, 1>),
    /// By a name for all.
    #[implicit(0)]
    Named(asn1::Utf8String<'a>),
}

/// A choice in a structure, which may be missing.
#[derive(asn1::Asn1Read, asn1::Asn1Write)]
pub struct Alternative<'a> {
    /// Who answers, if anyone does.
    pub responder: Option<ResponderId<'a>>,
}

/// Whether a bag is full, and the numbers in the bag, which is made in code and only written.
#[derive(asn1::Asn1Write)]
pub struct Bag<'a> {
    /// Whether it is full.
    pub full: bool,
    /// The numbers.
    pub numbers: asn1::SetOfWriter<'a, u64>,
}
