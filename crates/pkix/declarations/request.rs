//! Requests for certificates (RFC 2986).

use crate::common::{AlgorithmIdentifier, Attributes, Name, SubjectPublicKeyInfo};

/// CertificationRequestInfo (RFC 2986, 4.1), a SEQUENCE: the part of a request that is signed.
#[derive(asn1::Asn1Read, asn1::Asn1Write, Debug, Clone, PartialEq, Eq)]
pub struct CertificationRequestInfo<'a> {
    /// The version, which is the number less one: 0 is v1. Any from 0 to 255 is read.
    pub version: u8,
    /// Whose key it is.
    pub subject: Name<'a>,
    /// The key.
    #[name("subjectPKInfo")]
    pub subject_pk_info: SubjectPublicKeyInfo<'a>,
    /// The attributes of the subject.
    #[implicit(0, required = true)]
    pub attributes: Attributes<'a>,
}

/// CertificationRequest (RFC 2986, 4.2), a SEQUENCE.
#[derive(asn1::Asn1Read, asn1::Asn1Write, Debug, Clone, PartialEq, Eq)]
pub struct CertificationRequest<'a> {
    /// The part that is signed.
    pub certification_request_info: CertificationRequestInfo<'a>,
    /// The algorithm of the signature.
    pub signature_algorithm: AlgorithmIdentifier<'a>,
    /// The signature.
    pub signature: asn1::BitString<'a>,
}
