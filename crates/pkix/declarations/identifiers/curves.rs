//! Curves, the parameters of keys of elliptic curves (RFC 5480, 2.1.1.1; SEC 2).

/// secp192r1: P-192.
pub const SECP192R1: asn1::ObjectIdentifier = asn1::oid!(1, 2, 840, 10045, 3, 1, 1);

/// secp224r1: P-224.
pub const SECP224R1: asn1::ObjectIdentifier = asn1::oid!(1, 3, 132, 0, 33);

/// secp256r1: P-256.
pub const SECP256R1: asn1::ObjectIdentifier = asn1::oid!(1, 2, 840, 10045, 3, 1, 7);

/// secp384r1: P-384.
pub const SECP384R1: asn1::ObjectIdentifier = asn1::oid!(1, 3, 132, 0, 34);

/// secp521r1: P-521.
pub const SECP521R1: asn1::ObjectIdentifier = asn1::oid!(1, 3, 132, 0, 35);

/// secp256k1, which SEC 2 has.
pub const SECP256K1: asn1::ObjectIdentifier = asn1::oid!(1, 3, 132, 0, 10);
