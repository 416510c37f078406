//! Values that an item before them defines: each attribute of the original's derives for them, once.

use asn1::{Asn1Read, Asn1Write};
use super::page::Tagged;
use super::tags::Either;

/// The identifier 1.2.3.
pub const SOME_OID: asn1::ObjectIdentifier = asn1::oid!(1, 2, 3);

/// RSA with SHA-256 (RFC 8017).
pub const SHA256_WITH_RSA: asn1::ObjectIdentifier = asn1::oid!(1, 2, 840, 113549, 1, 1, 11);

/// The identifier 1.2.4.
pub const OTHER_OID: asn1::ObjectIdentifier = asn1::oid!(1, 2, 4);

/// An identifier, and what it defines.
#[derive(asn1::Asn1Read, asn1::Asn1Write, PartialEq)]
pub struct MySequence {
    /// The identifier, which the content tells.
    pub content_type: asn1::DefinedByMarker<asn1::ObjectIdentifier>,
    /// The content.
    #[defined_by(content_type)]
    pub content: Content,
}

/// What an identifier defines that is one of two.
#[derive(asn1::Asn1DefinedByRead, asn1::Asn1DefinedByWrite, PartialEq)]
pub enum Content {
    /// A number.
    #[defined_by(SOME_OID)]
    SomeVariant(i32),
    /// Parameters that are null (RFC 8017, A.2.4).
    #[defined_by(SHA256_WITH_RSA)]
    RsaParameters(asn1::Null),
}

/// What any identifier defines.
#[derive(asn1::Asn1DefinedByRead, asn1::Asn1DefinedByWrite, Clone, PartialEq)]
pub enum AnyContent<'a> {
    /// Fields with tags, whose encoding is in an octet string.
    #[defined_by(SOME_OID)]
    Tagged(asn1::OctetStringEncoded<Tagged<'a>>),
    /// Numbers under a tag around the list's own.
    #[defined_by(OTHER_OID)]
    #[explicit(1)]
    Numbers(asn1::SequenceOf<'a, u64>),
    /// A flag, or none.
    #[defined_by(SHA256_WITH_RSA)]
    Flag(Option<bool>),
    /// Every other identifier, and its value.
    #[default]
    Unknown(asn1::ObjectIdentifier, asn1::Tlv<'a>),
}

/// An identifier, and what it defines, whatever it is.
#[derive(asn1::Asn1Read, asn1::Asn1Write)]
pub struct AnySequence<'a> {
    /// The identifier, which the content tells.
    pub content_type: asn1::DefinedByMarker<asn1::ObjectIdentifier>,
    /// The content.
    #[defined_by(content_type)]
    pub content: AnyContent<'a>,
}

/// Two fields between an identifier and what it defines, one before both, and one after.
#[derive(asn1::Asn1Read, asn1::Asn1Write, PartialEq)]
pub struct Letter {
    /// A number.
    pub number: u64,
    /// The identifier, which the content tells.
    pub kind: asn1::DefinedByMarker<asn1::ObjectIdentifier>,
    /// Whether the content has to be known, false by default.
    #[default(false)]
    pub critical: bool,
    /// How often it was sent.
    #[implicit(0)]
    pub sent: Option<u8>,
    /// The content.
    #[defined_by(kind)]
    pub content: Content,
    /// Whether it was read.
    pub is_read: bool,
}

/// A number, or any other content.
#[derive(asn1::Asn1DefinedByRead, asn1::Asn1DefinedByWrite, PartialEq)]
pub enum Listed<'a> {
    /// A number.
    #[defined_by(SOME_OID)]
    Number(i32),
    /// Every other identifier, and its value.
    #[default]
    Unknown(asn1::ObjectIdentifier, asn1::Tlv<'a>),
}

/// An identifier, what it defines under a tag, and a note.
#[derive(asn1::Asn1Read, asn1::Asn1Write, PartialEq)]
pub struct Entry<'a> {
    /// The identifier, which the content tells.
    pub kind: asn1::DefinedByMarker<asn1::ObjectIdentifier>,
    /// The content.
    #[explicit(3, required = true)]
    #[defined_by(kind)]
    pub listed: Listed<'a>,
    /// A note, which may be missing.
    pub note: Option<bool>,
}

/// What may be missing between an identifier and what it defines, behind a choice.
#[derive(asn1::Asn1Read, asn1::Asn1Write, PartialEq)]
pub struct Order<'a> {
    /// The identifier, which the content tells.
    pub kind: asn1::DefinedByMarker<asn1::ObjectIdentifier>,
    /// Octets or none.
    pub by: Either<'a>,
    /// A number.
    #[explicit(0)]
    pub number: Option<u8>,
    /// Octets or none.
    #[explicit(1)]
    pub from: Option<Either<'a>>,
    /// Octets.
    #[implicit(2)]
    pub octets: Option<&'a [u8]>,
    /// A letter.
    #[explicit(3)]
    pub letter: Option<Letter>,
    /// Whether.
    #[implicit(4)]
    pub flag: Option<bool>,
    /// Another number.
    #[implicit(5)]
    pub count: Option<u64>,
    /// The content.
    #[defined_by(kind)]
    pub content: Content,
}
