//! Signed data (RFC 5652), as far as time stamps need it.

use crate::certificate::Certificate;
use crate::common::AlgorithmIdentifier;
use crate::revocation::CertificateList;
use crate::signatures::SignerInfo;

/// ContentInfo (RFC 5652, 3), a SEQUENCE.
#[derive(asn1::Asn1Read, asn1::Asn1Write, Debug, Clone, Copy, PartialEq, Eq)]
pub struct ContentInfo<'a> {
    /// Which content it is.
    pub content_type: asn1::ObjectIdentifier,
    /// The content: an element of the type that `content_type` defines.
    #[explicit(0, required = true)]
    pub content: asn1::Tlv<'a>,
}

/// EncapsulatedContentInfo (RFC 5652, 5.2), a SEQUENCE.
#[derive(asn1::Asn1Read, asn1::Asn1Write, Debug, Clone, Copy, PartialEq, Eq)]
pub struct EncapsulatedContentInfo<'a> {
    /// Which content it is.
    pub e_content_type: asn1::ObjectIdentifier,
    /// The octets of the content.
    #[explicit(0)]
    pub e_content: Option<&'a [u8]>,
}

/// SignedData (RFC 5652, 5.1), a SEQUENCE.
#[derive(asn1::Asn1Read, asn1::Asn1Write, Debug, Clone, PartialEq, Eq)]
pub struct SignedData<'a> {
    /// The version: 1, 3, 4 or 5. Any from 0 to 255 is read.
    pub version: u8,
    /// The algorithms of the signers' digests.
    pub digest_algorithms: asn1::SetOf<'a, AlgorithmIdentifier<'a>>,
    /// What is signed.
    pub encap_content_info: EncapsulatedContentInfo<'a>,
    /// Certificates: a CertificateSet without other forms.
    #[implicit(0)]
    pub certificates: Option<asn1::SetOf<'a, Certificate<'a>>>,
    /// Revocation lists: RevocationInfoChoices without other forms.
    #[implicit(1)]
    pub crls: Option<asn1::SetOf<'a, CertificateList<'a>>>,
    /// Who signed.
    pub signer_infos: asn1::SetOf<'a, SignerInfo<'a>>,
}
