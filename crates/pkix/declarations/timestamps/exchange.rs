//! Requests for time stamps, and responses (RFC 3161, 2.4).

use crate::common::{AlgorithmIdentifier, Extensions, NamedBits};
use crate::signatures::ContentInfo;

/// MessageImprint (RFC 3161, 2.4.1), a SEQUENCE: the digest of what is stamped.
#[derive(asn1::Asn1Read, asn1::Asn1Write, Debug, Clone, Copy, PartialEq, Eq)]
pub struct MessageImprint<'a> {
    /// The algorithm of the digest.
    pub hash_algorithm: AlgorithmIdentifier<'a>,
    /// The digest.
    pub hashed_message: &'a [u8],
}

/// TimeStampReq (RFC 3161, 2.4.1), a SEQUENCE.
#[derive(asn1::Asn1Read, asn1::Asn1Write, Debug, Clone, PartialEq, Eq)]
pub struct TimeStampReq<'a> {
    /// The version, which is 1. Any from 0 to 255 is read.
    pub version: u8,
    /// The digest of what is to be stamped.
    pub message_imprint: MessageImprint<'a>,
    /// The policy asked for.
    pub req_policy: Option<asn1::ObjectIdentifier>,
    /// A number that the response has to repeat.
    pub nonce: Option<asn1::BigInt<'a>>,
    /// Whether the response has to have the certificate.
    #[default(false)]
    pub cert_req: bool,
    /// The extensions.
    #[implicit(0)]
    pub extensions: Option<Extensions<'a>>,
}

/// PKIStatusInfo (RFC 3161, 2.4.2), a SEQUENCE.
#[derive(asn1::Asn1Read, asn1::Asn1Write, Debug, Clone, PartialEq, Eq)]
pub struct PkiStatusInfo<'a> {
    /// PKIStatus: 0 is granted, 1 granted with changes, 2 rejected, and so on to 5. Any from 0 to 2^32 - 1 is read.
    pub status: u32,
    /// PKIFreeText: words for people.
    pub status_string: Option<PkiFreeText<'a>>,
    /// PKIFailureInfo: why there is no time stamp.
    pub fail_info: Option<NamedBits<'a>>,
}

/// PKIFreeText (RFC 3161, 2.4.2), a SEQUENCE of at least one UTF8String.
pub type PkiFreeText<'a> = asn1::SequenceOf<'a, asn1::Utf8String<'a>, 1>;

/// TimeStampResp (RFC 3161, 2.4.2), a SEQUENCE.
#[derive(asn1::Asn1Read, asn1::Asn1Write, Debug, Clone, PartialEq, Eq)]
pub struct TimeStampResp<'a> {
    /// Whether there is a time stamp, and why not.
    pub status: PkiStatusInfo<'a>,
    /// The time stamp: a ContentInfo with SignedData of a TSTInfo.
    pub time_stamp_token: Option<ContentInfo<'a>>,
}
