//! Private keys of elliptic curves (RFC 5915, 3).

/// A private key.
#[derive(asn1::Asn1Read, asn1::Asn1Write, Debug, Clone, Copy, PartialEq, Eq, Hash)]
pub struct EcPrivateKey<'a> {
    /// The version, 1.
    pub version: u8,
    /// The key.
    pub private_key: &'a [u8],
    /// The curve, by its identifier.
    #[explicit(0)]
    pub parameters: Option<asn1::ObjectIdentifier>,
    /// The public key.
    #[explicit(1)]
    pub public_key: Option<asn1::BitString<'a>>,
}
