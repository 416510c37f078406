//! Revocation lists (RFC 5280, 5.1 to 5.3).

use crate::common::{AlgorithmIdentifier, Extensions, Name, Time};

/// An entry of a revocation list (RFC 5280, 5.1.2.6), a SEQUENCE.
#[derive(asn1::Asn1Read, asn1::Asn1Write, Debug, Clone, PartialEq, Eq)]
pub struct RevokedCertificate<'a> {
    /// The serial number of the certificate.
    pub user_certificate: asn1::BigInt<'a>,
    /// When it was revoked.
    pub revocation_date: Time,
    /// The extensions of the entry.
    pub crl_entry_extensions: Option<Extensions<'a>>,
}

/// The entries of a revocation list (RFC 5280, 5.1.2.6), a SEQUENCE OF. An empty one is read.
pub type RevokedCertificates<'a> = asn1::SequenceOf<'a, RevokedCertificate<'a>>;

/// TBSCertList (RFC 5280, 5.1.2), a SEQUENCE: the part of a revocation list that is signed.
#[derive(asn1::Asn1Read, asn1::Asn1Write, Debug, Clone, PartialEq, Eq)]
pub struct TbsCertList<'a> {
    /// The version, which is the number less one: 1 is v2, and v1 is left out. Any from 0 to 255 is read.
    pub version: Option<u8>,
    /// The algorithm of the signature.
    pub signature: AlgorithmIdentifier<'a>,
    /// Who signs.
    pub issuer: Name<'a>,
    /// When the list was issued.
    pub this_update: Time,
    /// When the next list will be issued at the latest.
    pub next_update: Option<Time>,
    /// The entries.
    pub revoked_certificates: Option<RevokedCertificates<'a>>,
    /// The extensions.
    #[explicit(0)]
    pub crl_extensions: Option<Extensions<'a>>,
}

/// CertificateList (RFC 5280, 5.1.1), a SEQUENCE: a revocation list.
#[derive(asn1::Asn1Read, asn1::Asn1Write, Debug, Clone, PartialEq, Eq)]
pub struct CertificateList<'a> {
    /// The part that is signed.
    pub tbs_cert_list: TbsCertList<'a>,
    /// The algorithm of the signature.
    pub signature_algorithm: AlgorithmIdentifier<'a>,
    /// The signature.
    pub signature_value: asn1::BitString<'a>,
}
