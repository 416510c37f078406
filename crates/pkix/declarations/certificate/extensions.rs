//! Values of extensions (RFC 5280, 4.2.1 and 4.2.2): each type is what the octets of an extension hold.

use crate::common::{Attribute, GeneralNames, NamedBits};

/// BasicConstraints (RFC 5280, 4.2.1.9), a SEQUENCE; identifier 2.5.29.19.
#[derive(asn1::Asn1Read, asn1::Asn1Write, Debug, Clone, Copy, PartialEq, Eq)]
pub struct BasicConstraints<'a> {
    /// Whether the subject may sign certificates.
    #[name("cA")]
    #[default(false)]
    pub ca: bool,
    /// How many certificates that aren't issued by their own subject may follow in a path.
    pub path_len_constraint: Option<asn1::BigUint<'a>>,
}

/// AuthorityKeyIdentifier (RFC 5280, 4.2.1.1), a SEQUENCE; identifier 2.5.29.35. That it has both or neither of the
/// issuer and the serial number isn't checked.
#[derive(asn1::Asn1Read, asn1::Asn1Write, Debug, Clone, PartialEq, Eq)]
pub struct AuthorityKeyIdentifier<'a> {
    /// The identifier of the key that signed.
    #[implicit(0)]
    pub key_identifier: Option<&'a [u8]>,
    /// The issuer of that key's certificate.
    #[implicit(1)]
    pub authority_cert_issuer: Option<GeneralNames<'a>>,
    /// The serial number of that certificate.
    #[implicit(2)]
    pub authority_cert_serial_number: Option<asn1::BigInt<'a>>,
}

/// SubjectKeyIdentifier (RFC 5280, 4.2.1.2), an OCTET STRING; identifier 2.5.29.14.
pub type SubjectKeyIdentifier<'a> = &'a [u8];

/// KeyUsage (RFC 5280, 4.2.1.3), a BIT STRING with named bits; identifier 2.5.29.15. That at least one bit is set isn't
/// checked.
pub type KeyUsage<'a> = NamedBits<'a>;

/// SubjectAltName (RFC 5280, 4.2.1.6), GeneralNames; identifier 2.5.29.17.
pub type SubjectAltName<'a> = GeneralNames<'a>;

/// SubjectDirectoryAttributes (RFC 5280, 4.2.1.8), a SEQUENCE of at least one Attribute; identifier 2.5.29.9.
pub type SubjectDirectoryAttributes<'a> = asn1::SequenceOf<'a, Attribute<'a>, 1>;

/// ExtKeyUsageSyntax (RFC 5280, 4.2.1.12), a SEQUENCE of at least one purpose; identifier 2.5.29.37.
pub type ExtendedKeyUsage<'a> = asn1::SequenceOf<'a, asn1::ObjectIdentifier, 1>;
