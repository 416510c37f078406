//! Where revocation lists are found, and what they have (RFC 5280, 4.2.1.13 and 5.2.5).

use crate::common::{AttributeTypeAndValue, GeneralNames, NamedBits};

/// DistributionPointName (RFC 5280, 4.2.1.13), a CHOICE.
#[derive(asn1::Asn1Read, asn1::Asn1Write, Debug, Clone, PartialEq, Eq)]
pub enum DistributionPointName<'a> {
    /// The names of the list, each by itself.
    #[implicit(0)]
    FullName(GeneralNames<'a>),
    /// The attributes that follow the name of the list's issuer. Of this set the RFC says `SIZE (1..MAX)`, which isn't
    /// checked.
    #[implicit(1)]
    NameRelativeToCrlIssuer(asn1::SetOf<'a, AttributeTypeAndValue<'a>>),
}

/// DistributionPoint (RFC 5280, 4.2.1.13), a SEQUENCE: where a revocation list is, and what it is for. That it has a
/// distribution point or an issuer isn't checked.
#[derive(asn1::Asn1Read, asn1::Asn1Write, Debug, Clone, PartialEq, Eq)]
pub struct DistributionPoint<'a> {
    /// Where the list is.
    #[explicit(0)]
    pub distribution_point: Option<DistributionPointName<'a>>,
    /// The reasons that the list has; all of them if there are none here.
    #[implicit(1)]
    pub reasons: Option<NamedBits<'a>>,
    /// Who issues the list, if that isn't the certificate's issuer.
    #[name("cRLIssuer")]
    #[implicit(2)]
    pub crl_issuer: Option<GeneralNames<'a>>,
}

/// CRLDistributionPoints (RFC 5280, 4.2.1.13), a SEQUENCE of at least one DistributionPoint; identifier 2.5.29.31. The
/// value of freshestCRL (4.2.1.15 and 5.2.6), identifier 2.5.29.46, is of this type too.
pub type CrlDistributionPoints<'a> = asn1::SequenceOf<'a, DistributionPoint<'a>, 1>;

/// IssuingDistributionPoint (RFC 5280, 5.2.5), a SEQUENCE: where this revocation list is, and what it has; identifier
/// 2.5.29.28. One without fields is read, and one in which several of `onlyContains` are true: the RFC forbids both.
#[derive(asn1::Asn1Read, asn1::Asn1Write, Debug, Clone, PartialEq, Eq)]
pub struct IssuingDistributionPoint<'a> {
    /// Where the list is.
    #[explicit(0)]
    pub distribution_point: Option<DistributionPointName<'a>>,
    /// Whether all its certificates are of users.
    #[implicit(1)]
    #[default(false)]
    pub only_contains_user_certs: bool,
    /// Whether all its certificates are of authorities.
    #[name("onlyContainsCACerts")]
    #[implicit(2)]
    #[default(false)]
    pub only_contains_ca_certs: bool,
    /// The reasons that the list has; all of them if there are none here.
    #[implicit(3)]
    pub only_some_reasons: Option<NamedBits<'a>>,
    /// Whether it may have certificates of other issuers.
    #[name("indirectCRL")]
    #[implicit(4)]
    #[default(false)]
    pub indirect_crl: bool,
    /// Whether all its certificates are of attributes.
    #[implicit(5)]
    #[default(false)]
    pub only_contains_attribute_certs: bool,
}
