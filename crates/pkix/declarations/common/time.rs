//! Times (RFC 5280, 4.1.2.5).

/// Time (RFC 5280, 4.1), a CHOICE of two forms of a time in UTC, distinguished by the tag. Which form a year has to
/// have isn't checked.
#[derive(asn1::Asn1Read, asn1::Asn1Write, Debug, Clone, Copy, PartialEq, Eq)]
pub enum Time {
    /// utcTime: a time from 1950 to 2049.
    UtcTime(asn1::UtcTime),
    /// generalTime: a time of any year, in whole seconds.
    GeneralTime(asn1::X509GeneralizedTime),
}
