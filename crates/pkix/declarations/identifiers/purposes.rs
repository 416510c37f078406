//! Purposes of keys (RFC 5280, 4.2.1.12), the items of
//! [`ExtendedKeyUsage`](crate::certificate::extensions::ExtendedKeyUsage).

/// anyExtendedKeyUsage: each purpose.
pub const ANY_EXTENDED_KEY_USAGE: asn1::ObjectIdentifier = asn1::oid!(2, 5, 29, 37, 0);

/// id-kp-serverAuth: servers of TLS.
pub const SERVER_AUTH: asn1::ObjectIdentifier = asn1::oid!(1, 3, 6, 1, 5, 5, 7, 3, 1);

/// id-kp-clientAuth: clients of TLS.
pub const CLIENT_AUTH: asn1::ObjectIdentifier = asn1::oid!(1, 3, 6, 1, 5, 5, 7, 3, 2);

/// id-kp-codeSigning: programs.
pub const CODE_SIGNING: asn1::ObjectIdentifier = asn1::oid!(1, 3, 6, 1, 5, 5, 7, 3, 3);

/// id-kp-emailProtection: electronic mail.
pub const EMAIL_PROTECTION: asn1::ObjectIdentifier = asn1::oid!(1, 3, 6, 1, 5, 5, 7, 3, 4);

/// id-kp-timeStamping: time stamps.
pub const TIME_STAMPING: asn1::ObjectIdentifier = asn1::oid!(1, 3, 6, 1, 5, 5, 7, 3, 8);

/// id-kp-OCSPSigning: responses of OCSP.
pub const OCSP_SIGNING: asn1::ObjectIdentifier = asn1::oid!(1, 3, 6, 1, 5, 5, 7, 3, 9);
