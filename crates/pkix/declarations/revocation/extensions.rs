//! Values of extensions of revocation lists and of their entries (RFC 5280, 5.2.3, 5.2.4, 5.3.1 and 5.3.2).

/// CRLNumber (RFC 5280, 5.2.3), an INTEGER from 0; identifier 2.5.29.20.
pub type CrlNumber<'a> = asn1::BigUint<'a>;

/// BaseCRLNumber (RFC 5280, 5.2.4), an INTEGER from 0: the number of the list that this one completes; identifier
/// 2.5.29.27.
pub type BaseCrlNumber<'a> = asn1::BigUint<'a>;

/// CRLReason (RFC 5280, 5.3.1), an ENUMERATED of 0 to 6 and 8 to 10, which isn't checked; identifier 2.5.29.21.
pub type CrlReason = asn1::Enumerated;

/// InvalidityDate (RFC 5280, 5.3.2), a GeneralizedTime in whole seconds: since when the key may be known to others;
/// identifier 2.5.29.24.
pub type InvalidityDate = asn1::X509GeneralizedTime;
