//! Items that are numbers, and defaults that aren't literals: each form of the script for them, once.

/// A number (RFC 4120, 7.5.2: PA-ENC-TIMESTAMP).
pub const ENC_TIMESTAMP: i32 = 2;

/// Another (RFC 6113, 7.1: PA-FX-FAST).
pub const FX_FAST: i32 = 136;

/// A number below zero (RFC 4120, 7.5.2: they are for local use).
const LOCAL: i32 = -1;

/// The version.
pub(crate) const VERSION: u8 = 5;

/// What a number of an i32 defines.
#[derive(asn1::Asn1DefinedByRead, asn1::Asn1DefinedByWrite, Clone, PartialEq)]
pub(crate) enum PaValue<'a> {
    /// A number.
    #[defined_by(ENC_TIMESTAMP)]
    Timestamp(u64),
    /// Octets, under a tag.
    #[defined_by(FX_FAST)]
    #[explicit(0)]
    Fast(&'a [u8]),
    /// A flag.
    #[defined_by(LOCAL)]
    Local(bool),
    /// Every other number, and its value.
    #[default]
    Other(i32, asn1::Tlv<'a>),
}

/// A number, and what it defines.
#[derive(asn1::Asn1Read, asn1::Asn1Write, PartialEq)]
pub(crate) struct PaData<'a> {
    pub kind: asn1::DefinedByMarker<i32>,
    #[defined_by(kind)]
    pub value: PaValue<'a>,
}

/// What the version alone defines.
#[derive(asn1::Asn1DefinedByRead, asn1::Asn1DefinedByWrite, Copy, PartialEq)]
pub(crate) enum OfVersion<'a> { //~ `Copy`, which `Other` lacks
    #[defined_by(VERSION)]
    Number(u64),
    #[default]
    Other(u8, asn1::Tlv<'a>),
}

/// A version, and what it defines.
#[derive(asn1::Asn1Read, asn1::Asn1Write, PartialEq)]
pub(crate) struct Versioned<'a> {
    pub version: asn1::DefinedByMarker<u8>,
    #[defined_by(version)]
    pub value: OfVersion<'a>,
}

/// INTEGER { v1(0), v2(1) }, with these numbers alone.
#[derive(asn1::Asn1Read, asn1::Asn1Write, Clone, Copy, PartialEq, Eq)]
#[universal(2, implicit)]
pub(crate) enum Version {
    V1 = 0,
    V2 = 1,
}

/// Defaults.
#[derive(asn1::Asn1Read, asn1::Asn1Write, PartialEq)]
pub(crate) struct Defaults {
    #[explicit(0)]
    #[default(Version::V1)]
    pub version: Version,
    #[default(VERSION)]
    pub number: u8,
    #[default(Version::V2)]
    #[implicit(1)]
    pub other: Version,
    #[default([1, 0xff])]
    pub octets: [u8; 2],
}

/// SHA-1, which is the default of a hash function in RFC 8017, A.2.1.
pub(crate) const SHA1: asn1::ObjectIdentifier = asn1::oid!(1, 3, 14, 3, 2, 26);

/// Identifiers that may be left out, and types whose octets are kept.
#[derive(asn1::Asn1Read, asn1::Asn1Write, PartialEq)]
pub(crate) struct Named<'a> {
    #[explicit(0)]
    #[default(SHA1)]
    pub hash: asn1::ObjectIdentifier,
    #[default(SHA1)]
    pub other: asn1::ObjectIdentifier,
    pub place: asn1::RelativeOid<'a>,
    pub name: asn1::TeletexString<'a>,
}
