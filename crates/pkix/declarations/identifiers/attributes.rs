//! Types of attributes, in names (RFC 5280, A.1), in requests (RFC 2985, 5.4) and in signed data (RFC 5652, 11).

/// id-at-commonName.
pub const COMMON_NAME: asn1::ObjectIdentifier = asn1::oid!(2, 5, 4, 3);

/// id-at-surname.
pub const SURNAME: asn1::ObjectIdentifier = asn1::oid!(2, 5, 4, 4);

/// id-at-serialNumber: the number of a device or a person, and not that of a certificate.
pub const SERIAL_NUMBER: asn1::ObjectIdentifier = asn1::oid!(2, 5, 4, 5);

/// id-at-countryName: two letters of ISO 3166, a PrintableString.
pub const COUNTRY_NAME: asn1::ObjectIdentifier = asn1::oid!(2, 5, 4, 6);

/// id-at-localityName.
pub const LOCALITY_NAME: asn1::ObjectIdentifier = asn1::oid!(2, 5, 4, 7);

/// id-at-stateOrProvinceName.
pub const STATE_OR_PROVINCE_NAME: asn1::ObjectIdentifier = asn1::oid!(2, 5, 4, 8);

/// id-at-organizationName.
pub const ORGANIZATION_NAME: asn1::ObjectIdentifier = asn1::oid!(2, 5, 4, 10);

/// id-at-organizationalUnitName.
pub const ORGANIZATIONAL_UNIT_NAME: asn1::ObjectIdentifier = asn1::oid!(2, 5, 4, 11);

/// id-at-title.
pub const TITLE: asn1::ObjectIdentifier = asn1::oid!(2, 5, 4, 12);

/// id-at-givenName.
pub const GIVEN_NAME: asn1::ObjectIdentifier = asn1::oid!(2, 5, 4, 42);

/// id-at-initials.
pub const INITIALS: asn1::ObjectIdentifier = asn1::oid!(2, 5, 4, 43);

/// id-at-generationQualifier.
pub const GENERATION_QUALIFIER: asn1::ObjectIdentifier = asn1::oid!(2, 5, 4, 44);

/// id-at-dnQualifier, a PrintableString.
pub const DN_QUALIFIER: asn1::ObjectIdentifier = asn1::oid!(2, 5, 4, 46);

/// id-at-pseudonym.
pub const PSEUDONYM: asn1::ObjectIdentifier = asn1::oid!(2, 5, 4, 65);

/// id-domainComponent, an IA5String.
pub const DOMAIN_COMPONENT: asn1::ObjectIdentifier = asn1::oid!(0, 9, 2342, 19200300, 100, 1, 25);

/// id-emailAddress, an IA5String.
pub const EMAIL_ADDRESS: asn1::ObjectIdentifier = asn1::oid!(1, 2, 840, 113549, 1, 9, 1);

/// id-contentType: [`ContentType`](crate::signatures::ContentType).
pub const CONTENT_TYPE: asn1::ObjectIdentifier = asn1::oid!(1, 2, 840, 113549, 1, 9, 3);

/// id-messageDigest: [`MessageDigest`](crate::signatures::MessageDigest).
pub const MESSAGE_DIGEST: asn1::ObjectIdentifier = asn1::oid!(1, 2, 840, 113549, 1, 9, 4);

/// id-signingTime: [`SigningTime`](crate::signatures::SigningTime).
pub const SIGNING_TIME: asn1::ObjectIdentifier = asn1::oid!(1, 2, 840, 113549, 1, 9, 5);

/// challengePassword: a password to revoke the certificate by, a DirectoryString.
pub const CHALLENGE_PASSWORD: asn1::ObjectIdentifier = asn1::oid!(1, 2, 840, 113549, 1, 9, 7);

/// extensionRequest: [`Extensions`](crate::common::Extensions) that the certificate is to have.
pub const EXTENSION_REQUEST: asn1::ObjectIdentifier = asn1::oid!(1, 2, 840, 113549, 1, 9, 14);
