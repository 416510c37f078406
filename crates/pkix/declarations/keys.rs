//! Keys, and the parameters of their algorithms (RFC 5958, 8017, 5915, 5480, 3279 and 4055).

use crate::common::{AlgorithmIdentifier, Attributes};

/// OneAsymmetricKey (RFC 5958, 2), a SEQUENCE: a private key, and the public key if it is there. Fields after these,
/// which later versions may have, are rejected.
#[derive(asn1::Asn1Read, asn1::Asn1Write, Debug, Clone, PartialEq, Eq)]
pub struct OneAsymmetricKey<'a> {
    /// The version, which is the number less one: 0 is v1, and 1 is v2, which has a public key. Any from 0 to 255 is
    /// read.
    pub version: u8,
    /// The algorithm that the key is for.
    pub private_key_algorithm: AlgorithmIdentifier<'a>,
    /// The private key, whose octets the algorithm defines.
    pub private_key: &'a [u8],
    /// The attributes of the key.
    #[implicit(0)]
    pub attributes: Option<Attributes<'a>>,
    /// The public key, whose bits the algorithm defines.
    #[implicit(1)]
    pub public_key: Option<asn1::BitString<'a>>,
}

/// EncryptedPrivateKeyInfo (RFC 5958, 3), a SEQUENCE: a private key that is encrypted.
#[derive(asn1::Asn1Read, asn1::Asn1Write, Debug, Clone, Copy, PartialEq, Eq)]
pub struct EncryptedPrivateKeyInfo<'a> {
    /// The algorithm that encrypted it.
    pub encryption_algorithm: AlgorithmIdentifier<'a>,
    /// The encoding of a OneAsymmetricKey, encrypted.
    pub encrypted_data: &'a [u8],
}

/// RSAPublicKey (RFC 8017, A.1.1), a SEQUENCE. Its numbers aren't negative.
#[derive(asn1::Asn1Read, asn1::Asn1Write, Debug, Clone, Copy, PartialEq, Eq)]
pub struct RsaPublicKey<'a> {
    /// The modulus.
    pub modulus: asn1::BigUint<'a>,
    /// The exponent.
    pub public_exponent: asn1::BigUint<'a>,
}

/// OtherPrimeInfo (RFC 8017, A.1.2), a SEQUENCE: a prime after the first two. Its numbers aren't negative.
#[derive(asn1::Asn1Read, asn1::Asn1Write, Debug, Clone, Copy, PartialEq, Eq)]
pub struct OtherPrimeInfo<'a> {
    /// The prime.
    pub prime: asn1::BigUint<'a>,
    /// The private exponent modulo the prime less one.
    pub exponent: asn1::BigUint<'a>,
    /// The inverse of the product of the primes before it, modulo the prime.
    pub coefficient: asn1::BigUint<'a>,
}

/// OtherPrimeInfos (RFC 8017, A.1.2), a SEQUENCE of at least one OtherPrimeInfo.
pub type OtherPrimeInfos<'a> = asn1::SequenceOf<'a, OtherPrimeInfo<'a>, 1>;

/// RSAPrivateKey (RFC 8017, A.1.2), a SEQUENCE. Its numbers aren't negative.
#[derive(asn1::Asn1Read, asn1::Asn1Write, Debug, Clone, PartialEq, Eq)]
pub struct RsaPrivateKey<'a> {
    /// The version: 0 if there are two primes, and 1 if there are more, which isn't checked. Any from 0 to 255 is read.
    pub version: u8,
    /// The modulus, the product of the primes.
    pub modulus: asn1::BigUint<'a>,
    /// The exponent of the public key.
    pub public_exponent: asn1::BigUint<'a>,
    /// The exponent of the private key.
    pub private_exponent: asn1::BigUint<'a>,
    /// The first prime, p.
    pub prime1: asn1::BigUint<'a>,
    /// The second prime, q.
    pub prime2: asn1::BigUint<'a>,
    /// The private exponent modulo p - 1.
    pub exponent1: asn1::BigUint<'a>,
    /// The private exponent modulo q - 1.
    pub exponent2: asn1::BigUint<'a>,
    /// The inverse of q modulo p.
    pub coefficient: asn1::BigUint<'a>,
    /// The other primes.
    pub other_prime_infos: Option<OtherPrimeInfos<'a>>,
}

/// ECPrivateKey (RFC 5915, 3), a SEQUENCE.
#[derive(asn1::Asn1Read, asn1::Asn1Write, Debug, Clone, Copy, PartialEq, Eq)]
pub struct EcPrivateKey<'a> {
    /// The version, which is 1. Any from 0 to 255 is read.
    pub version: u8,
    /// The private key, a number of as many octets as the curve's order has.
    pub private_key: &'a [u8],
    /// ECParameters (RFC 5480, 2.1.1): the curve's identifier.
    #[explicit(0)]
    pub parameters: Option<asn1::ObjectIdentifier>,
    /// The public key, a point.
    #[explicit(1)]
    pub public_key: Option<asn1::BitString<'a>>,
}

/// Dss-Parms (RFC 3279, 2.3.2), a SEQUENCE: the parameters of DSA. Its numbers aren't negative.
#[derive(asn1::Asn1Read, asn1::Asn1Write, Debug, Clone, Copy, PartialEq, Eq)]
pub struct DssParms<'a> {
    /// The prime that numbers are taken modulo.
    pub p: asn1::BigUint<'a>,
    /// The prime divisor of p - 1.
    pub q: asn1::BigUint<'a>,
    /// The generator, whose order is q.
    pub g: asn1::BigUint<'a>,
}

/// RSASSA-PSS-params (RFC 4055, 3.1), a SEQUENCE. The defaults of its algorithms are structures: each is `None` if it
/// is left out, and if it is encoded, which DER forbids, it is read.
#[derive(asn1::Asn1Read, asn1::Asn1Write, Debug, Clone, Copy, PartialEq, Eq)]
pub struct RsassaPssParams<'a> {
    /// The digest, by default SHA-1 (`sha1Identifier`).
    #[explicit(0)]
    pub hash_algorithm: Option<AlgorithmIdentifier<'a>>,
    /// The function that makes masks, by default MGF1 with SHA-1 (`mgf1SHA1`).
    #[explicit(1)]
    pub mask_gen_algorithm: Option<AlgorithmIdentifier<'a>>,
    /// The number of the salt's octets. A number of 2^32 or more is rejected.
    #[explicit(2)]
    #[default(20)]
    pub salt_length: u32,
    /// The octets at the end: the RFC allows 1 alone. A number of 2^32 or more is rejected.
    #[explicit(3)]
    #[default(1)]
    pub trailer_field: u32,
}
