//! Certificates (RFC 5280, 4.1).

use crate::common::{AlgorithmIdentifier, Extensions, Name, SubjectPublicKeyInfo, Time};

/// Validity (RFC 5280, 4.1.2.5), a SEQUENCE: when a certificate is valid, both ends included.
#[derive(asn1::Asn1Read, asn1::Asn1Write, Debug, Clone, Copy, PartialEq, Eq)]
pub struct Validity {
    /// The first second.
    pub not_before: Time,
    /// The last second.
    pub not_after: Time,
}

/// TBSCertificate (RFC 5280, 4.1.2), a SEQUENCE: the part of a certificate that is signed.
#[derive(asn1::Asn1Read, asn1::Asn1Write, Debug, Clone, PartialEq, Eq)]
pub struct TbsCertificate<'a> {
    /// The version, which is the number less one: 0 is v1. Any from 0 to 255 is read.
    #[explicit(0)]
    #[default(0)]
    pub version: u8,
    /// The serial number. It may be negative.
    pub serial_number: asn1::BigInt<'a>,
    /// The algorithm of the signature.
    pub signature: AlgorithmIdentifier<'a>,
    /// Who signs.
    pub issuer: Name<'a>,
    /// When the certificate is valid.
    pub validity: Validity,
    /// Whose key is signed.
    pub subject: Name<'a>,
    /// The key.
    pub subject_public_key_info: SubjectPublicKeyInfo<'a>,
    /// A UniqueIdentifier of the issuer.
    #[name("issuerUniqueID")]
    #[implicit(1)]
    pub issuer_unique_id: Option<asn1::BitString<'a>>,
    /// A UniqueIdentifier of the subject.
    #[name("subjectUniqueID")]
    #[implicit(2)]
    pub subject_unique_id: Option<asn1::BitString<'a>>,
    /// The extensions.
    #[explicit(3)]
    pub extensions: Option<Extensions<'a>>,
}

/// Certificate (RFC 5280, 4.1.1), a SEQUENCE.
#[derive(asn1::Asn1Read, asn1::Asn1Write, Debug, Clone, PartialEq, Eq)]
pub struct Certificate<'a> {
    /// The part that is signed.
    pub tbs_certificate: TbsCertificate<'a>,
    /// The algorithm of the signature.
    pub signature_algorithm: AlgorithmIdentifier<'a>,
    /// The signature.
    pub signature_value: asn1::BitString<'a>,
}
