//! Where other data of an issuer or a subject is (RFC 5280, 4.2.2).

use crate::common::GeneralName;

/// AccessDescription (RFC 5280, 4.2.2.1), a SEQUENCE.
#[derive(asn1::Asn1Read, asn1::Asn1Write, Debug, Clone, PartialEq, Eq)]
pub struct AccessDescription<'a> {
    /// What the data is.
    pub access_method: asn1::ObjectIdentifier,
    /// Where the data is.
    pub access_location: GeneralName<'a>,
}

/// AuthorityInfoAccessSyntax (RFC 5280, 4.2.2.1), a SEQUENCE of at least one AccessDescription; identifier
/// 1.3.6.1.5.5.7.1.1. SubjectInfoAccessSyntax (4.2.2.2), identifier 1.3.6.1.5.5.7.1.11, is this type too.
pub type AuthorityInfoAccess<'a> = asn1::SequenceOf<'a, AccessDescription<'a>, 1>;
