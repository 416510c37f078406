//! Values of signatures (RFC 3279, 2.2.2 and 2.2.3; RFC 8017, 9.2).

use crate::common::AlgorithmIdentifier;

/// ECDSA-Sig-Value (RFC 3279, 2.2.3), a SEQUENCE, and Dss-Sig-Value (RFC 3279, 2.2.2), which is the same. Its numbers
/// aren't negative.
#[derive(asn1::Asn1Read, asn1::Asn1Write, Debug, Clone, Copy, PartialEq, Eq)]
pub struct EcdsaSigValue<'a> {
    /// The first number.
    pub r: asn1::BigUint<'a>,
    /// The second number.
    pub s: asn1::BigUint<'a>,
}

/// DigestInfo (RFC 8017, 9.2), a SEQUENCE: a digest, and the algorithm that made it.
#[derive(asn1::Asn1Read, asn1::Asn1Write, Debug, Clone, Copy, PartialEq, Eq)]
pub struct DigestInfo<'a> {
    /// The algorithm.
    pub digest_algorithm: AlgorithmIdentifier<'a>,
    /// The digest.
    pub digest: &'a [u8],
}
