//! The policies of a certificate, and what it demands of those that follow it in a path (RFC 5280, 4.2.1.4, 4.2.1.5,
//! 4.2.1.10, 4.2.1.11 and 4.2.1.14).

use crate::common::GeneralName;

/// PolicyQualifierInfo (RFC 5280, 4.2.1.4), a SEQUENCE: more about a policy.
#[derive(asn1::Asn1Read, asn1::Asn1Write, Debug, Clone, Copy, PartialEq, Eq)]
pub struct PolicyQualifierInfo<'a> {
    /// Which qualifier it is: the RFC has id-qt-cps and id-qt-unotice. Any identifier is read.
    pub policy_qualifier_id: asn1::ObjectIdentifier,
    /// The qualifier: an element of the type that `policy_qualifier_id` defines, which isn't checked.
    pub qualifier: asn1::Tlv<'a>,
}

/// CPSuri (RFC 5280, 4.2.1.4), an IA5String: where the statement of how certificates are issued is; the qualifier of
/// id-qt-cps, identifier 1.3.6.1.5.5.7.2.1.
pub type CpsUri<'a> = asn1::IA5String<'a>;

/// DisplayText (RFC 5280, 4.2.1.4), a CHOICE: words for people. Of each string the RFC says `SIZE (1..200)`, which
/// isn't checked.
#[derive(asn1::Asn1Read, asn1::Asn1Write, Debug, Clone, Copy, PartialEq, Eq)]
pub enum DisplayText<'a> {
    /// ia5String.
    Ia5(asn1::IA5String<'a>),
    /// visibleString.
    Visible(asn1::VisibleString<'a>),
    /// bmpString.
    Bmp(asn1::BMPString<'a>),
    /// utf8String.
    Utf8(asn1::Utf8String<'a>),
}

/// NoticeReference (RFC 5280, 4.2.1.4), a SEQUENCE: notices that an organization has by their numbers.
#[derive(asn1::Asn1Read, asn1::Asn1Write, Debug, Clone, PartialEq, Eq)]
pub struct NoticeReference<'a> {
    /// The organization.
    pub organization: DisplayText<'a>,
    /// The numbers of the notices. They may be negative.
    pub notice_numbers: asn1::SequenceOf<'a, asn1::BigInt<'a>>,
}

/// UserNotice (RFC 5280, 4.2.1.4), a SEQUENCE: what a user of the certificate is to be shown; the qualifier of
/// id-qt-unotice, identifier 1.3.6.1.5.5.7.2.2. One without fields is read.
#[derive(asn1::Asn1Read, asn1::Asn1Write, Debug, Clone, PartialEq, Eq)]
pub struct UserNotice<'a> {
    /// Where the notice is.
    pub notice_ref: Option<NoticeReference<'a>>,
    /// The notice.
    pub explicit_text: Option<DisplayText<'a>>,
}

/// PolicyInformation (RFC 5280, 4.2.1.4), a SEQUENCE: a policy.
#[derive(asn1::Asn1Read, asn1::Asn1Write, Debug, Clone, PartialEq, Eq)]
pub struct PolicyInformation<'a> {
    /// Which policy it is.
    pub policy_identifier: asn1::ObjectIdentifier,
    /// More about the policy, a SEQUENCE of at least one PolicyQualifierInfo.
    pub policy_qualifiers: Option<asn1::SequenceOf<'a, PolicyQualifierInfo<'a>, 1>>,
}

/// CertificatePolicies (RFC 5280, 4.2.1.4), a SEQUENCE of at least one PolicyInformation; identifier 2.5.29.32. That
/// each policy occurs once isn't checked.
pub type CertificatePolicies<'a> = asn1::SequenceOf<'a, PolicyInformation<'a>, 1>;

/// An item of PolicyMappings (RFC 5280, 4.2.1.5), a SEQUENCE: two policies that are equal for the issuer. That neither
/// is anyPolicy isn't checked.
#[derive(asn1::Asn1Read, asn1::Asn1Write, Debug, Clone, Copy, PartialEq, Eq)]
pub struct PolicyMapping {
    /// The issuer's policy.
    pub issuer_domain_policy: asn1::ObjectIdentifier,
    /// The subject's policy.
    pub subject_domain_policy: asn1::ObjectIdentifier,
}

/// PolicyMappings (RFC 5280, 4.2.1.5), a SEQUENCE of at least one item; identifier 2.5.29.33.
pub type PolicyMappings<'a> = asn1::SequenceOf<'a, PolicyMapping, 1>;

/// GeneralSubtree (RFC 5280, 4.2.1.10), a SEQUENCE: the names below one.
#[derive(asn1::Asn1Read, asn1::Asn1Write, Debug, Clone, PartialEq, Eq)]
pub struct GeneralSubtree<'a> {
    /// The name.
    pub base: GeneralName<'a>,
    /// How far below `base` the names begin: the RFC allows 0 alone. A number of 2^32 or more is rejected.
    #[implicit(0)]
    #[default(0)]
    pub minimum: u32,
    /// How far below `base` the names end. The RFC allows none here, which isn't checked.
    #[implicit(1)]
    pub maximum: Option<asn1::BigUint<'a>>,
}

/// GeneralSubtrees (RFC 5280, 4.2.1.10), a SEQUENCE of at least one GeneralSubtree.
pub type GeneralSubtrees<'a> = asn1::SequenceOf<'a, GeneralSubtree<'a>, 1>;

/// NameConstraints (RFC 5280, 4.2.1.10), a SEQUENCE: the names that the subjects of later certificates may have;
/// identifier 2.5.29.30. One without fields is read, which the RFC forbids.
#[derive(asn1::Asn1Read, asn1::Asn1Write, Debug, Clone, PartialEq, Eq)]
pub struct NameConstraints<'a> {
    /// The names that they may have.
    #[implicit(0)]
    pub permitted_subtrees: Option<GeneralSubtrees<'a>>,
    /// The names that they may not have.
    #[implicit(1)]
    pub excluded_subtrees: Option<GeneralSubtrees<'a>>,
}

/// PolicyConstraints (RFC 5280, 4.2.1.11), a SEQUENCE; identifier 2.5.29.36. One without fields is read, which the RFC
/// forbids. Its numbers are SkipCerts: how many certificates may come before.
#[derive(asn1::Asn1Read, asn1::Asn1Write, Debug, Clone, Copy, PartialEq, Eq)]
pub struct PolicyConstraints<'a> {
    /// After how many certificates each has to have a policy that is accepted.
    #[implicit(0)]
    pub require_explicit_policy: Option<asn1::BigUint<'a>>,
    /// After how many certificates policies may not be mapped.
    #[implicit(1)]
    pub inhibit_policy_mapping: Option<asn1::BigUint<'a>>,
}

/// InhibitAnyPolicy (RFC 5280, 4.2.1.14), an INTEGER from 0: after how many certificates anyPolicy matches no other
/// policy; identifier 2.5.29.54.
pub type InhibitAnyPolicy<'a> = asn1::BigUint<'a>;
