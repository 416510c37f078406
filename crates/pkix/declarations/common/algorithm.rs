//! Algorithms and public keys (RFC 5280, 4.1.1.2 and 4.1.2.7).

/// AlgorithmIdentifier (RFC 5280, 4.1.1.2), a SEQUENCE: an algorithm, and its parameters, if there are any, which are
/// one element of any type.
#[derive(asn1::Asn1Read, asn1::Asn1Write, Debug, Clone, Copy, PartialEq, Eq)]
pub struct AlgorithmIdentifier<'a> {
    /// The algorithm.
    pub algorithm: asn1::ObjectIdentifier,
    /// Its parameters: an element of the type that the algorithm defines.
    pub parameters: Option<asn1::Tlv<'a>>,
}

/// SubjectPublicKeyInfo (RFC 5280, 4.1.2.7), a SEQUENCE: a public key, and the algorithm that it is for.
#[derive(asn1::Asn1Read, asn1::Asn1Write, Debug, Clone, Copy, PartialEq, Eq)]
pub struct SubjectPublicKeyInfo<'a> {
    /// The algorithm.
    pub algorithm: AlgorithmIdentifier<'a>,
    /// The key, whose bits the algorithm defines.
    pub subject_public_key: asn1::BitString<'a>,
}
