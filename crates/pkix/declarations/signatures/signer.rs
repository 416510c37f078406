//! Who signed (RFC 5652, 5.3), and the values of signed attributes (11.1 to 11.3).

use crate::common::{AlgorithmIdentifier, Attributes, Name, Time};

/// IssuerAndSerialNumber (RFC 5652, 10.2.4), a SEQUENCE: a certificate's issuer and serial number.
#[derive(asn1::Asn1Read, asn1::Asn1Write, Debug, Clone, PartialEq, Eq)]
pub struct IssuerAndSerialNumber<'a> {
    /// The issuer.
    pub issuer: Name<'a>,
    /// The serial number.
    pub serial_number: asn1::BigInt<'a>,
}

/// SignerIdentifier (RFC 5652, 5.3), a CHOICE.
#[derive(asn1::Asn1Read, asn1::Asn1Write, Debug, Clone, PartialEq, Eq)]
pub enum SignerIdentifier<'a> {
    /// The certificate's issuer and serial number.
    IssuerAndSerialNumber(IssuerAndSerialNumber<'a>),
    /// The identifier of the certificate's key.
    #[implicit(0)]
    SubjectKeyIdentifier(&'a [u8]),
}

/// SignerInfo (RFC 5652, 5.3), a SEQUENCE. Of both sets of attributes the RFC says `SIZE (1..MAX)`, which isn't
/// checked.
#[derive(asn1::Asn1Read, asn1::Asn1Write, Debug, Clone, PartialEq, Eq)]
pub struct SignerInfo<'a> {
    /// The version: 1 or 3. Any from 0 to 255 is read.
    pub version: u8,
    /// Who signed.
    pub sid: SignerIdentifier<'a>,
    /// The algorithm of the digest.
    pub digest_algorithm: AlgorithmIdentifier<'a>,
    /// The attributes that are signed with the content.
    #[implicit(0)]
    pub signed_attrs: Option<Attributes<'a>>,
    /// The algorithm of the signature.
    pub signature_algorithm: AlgorithmIdentifier<'a>,
    /// The signature.
    pub signature: &'a [u8],
    /// The attributes that aren't signed.
    #[implicit(1)]
    pub unsigned_attrs: Option<Attributes<'a>>,
}

/// ContentType (RFC 5652, 11.1), an OBJECT IDENTIFIER: which content is signed; the attribute 1.2.840.113549.1.9.3.
pub type ContentType = asn1::ObjectIdentifier;

/// MessageDigest (RFC 5652, 11.2), an OCTET STRING: the digest of the content; the attribute 1.2.840.113549.1.9.4.
pub type MessageDigest<'a> = &'a [u8];

/// SigningTime (RFC 5652, 11.3), a Time: when the signer says that he signed; the attribute 1.2.840.113549.1.9.5.
pub type SigningTime = Time;
