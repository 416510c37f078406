/* DER (X.690) for C and C++: elements, whether octets are the one encoding of a value, and values.
 *
 * Each function reads octets where they are, and allocates nothing: that is tested. docs/C.md says what is proved of
 * each, how a program is linked, and what this header trusts.
 *
 * What the caller owes, of which nothing is checked:
 * - A pointer to octets or to a buffer is valid for the count behind it, and isn't null, not even if the count is 0.
 * - A count is at most PTRDIFF_MAX.
 * - Each other pointer points to one object of its type.
 * - What a function sets overlaps neither the octets nor anything else that it is given, and no other thread reads
 *   or writes it during the call. The octets stay as they are during the call.
 *
 * The library keeps nothing from one call to the next, so several threads may call it at the same time. A signal
 * handler may not.
 *
 * Counts and lengths are in octets. Texts are ASCII, and have no zero octet after them.
 */
#ifndef ASN1_H
#define ASN1_H

#include <stdbool.h>
#include <stddef.h>
#include <stdint.h>

#ifdef __cplusplus
extern "C" {
#endif

/* The version that this header is of: 0.24.1. `asn1_version` returns that of the library. */
#define ASN1_VERSION UINT32_C(0x001801)

/* Errors. A function returns one of these numbers. */
enum {
    ASN1_OK = 0,
    ASN1_INVALID_VALUE = 1,          /* the contents octets encode no value of the type */
    ASN1_INVALID_TAG = 2,            /* the identifier octets are malformed, or the number is from 2^32 on */
    ASN1_INVALID_LENGTH = 3,         /* the length is indefinite, from 2^32 on, or not in its fewest octets */
    ASN1_INVALID_SIZE = 4,           /* there are too few or too many items: `min`, `max`, `actual` */
    ASN1_UNEXPECTED_TAG = 5,         /* the element has another tag: `tag_number`, `tag_class`, `tag_constructed` */
    ASN1_SHORT_DATA = 6,             /* octets are missing: `needed` */
    ASN1_INTEGER_OVERFLOW = 7,       /* the number is out of the range of the type */
    ASN1_EXTRA_DATA = 8,             /* octets follow the value */
    ASN1_INVALID_SET_ORDERING = 9,   /* the elements of a set are out of order */
    ASN1_ENCODED_DEFAULT = 10,       /* the default is encoded */
    ASN1_OID_TOO_LONG = 11,          /* the object identifier has more than 63 contents octets */
    ASN1_UNKNOWN_DEFINED_BY = 12,    /* the identifier that defines another field is unknown */
    ASN1_ALLOCATION_ERROR = 13,      /* out of memory */
    ASN1_UNKNOWN_TYPE = 64,          /* no type or object has this number */
    ASN1_BUFFER_TOO_SMALL = 65       /* the buffer has no room for the text, and stays as it was */
};

/* An error and its details. A detail of another error is 0, and so is each if there is no error. */
struct asn1_error {
    uint32_t number;       /* the error, or ASN1_OK: what the function returns, too */
    uint32_t tag_number;   /* of ASN1_UNEXPECTED_TAG: the tag that was found; its class, 0 to 3: universal, */
    uint8_t tag_class;     /* application, context-specific, private; and whether the encoding is constructed */
    bool tag_constructed;
    size_t needed;         /* of ASN1_SHORT_DATA: how many octets are missing at least */
    size_t min;            /* of ASN1_INVALID_SIZE: the least and the greatest count of items, and the count */
    size_t max;
    size_t actual;
};

/* An element: its tag, and how many octets it has. */
struct asn1_element {
    uint32_t number;         /* the number of the tag */
    uint8_t class_number;    /* its class, 0 to 3: universal, application, context-specific, private */
    bool constructed;        /* whether the encoding is constructed */
    size_t header_length;    /* how many identifier and length octets there are */
    size_t contents_length;  /* how many contents octets follow these */
};

/* Types of ASN.1, for `asn1_check`. */
enum {
    ASN1_BOOLEAN = 1,                 /* A Boolean. */
    ASN1_ANY = 2,                     /* Any element. */
    ASN1_I8 = 3,                      /* An integer from -2^7 to 2^7 - 1. */
    ASN1_U8 = 4,                      /* An integer from 0 to 2^8 - 1. */
    ASN1_I16 = 5,                     /* An integer from -2^15 to 2^15 - 1. */
    ASN1_U16 = 6,                     /* An integer from 0 to 2^16 - 1. */
    ASN1_I32 = 7,                     /* An integer from -2^31 to 2^31 - 1. */
    ASN1_U32 = 8,                     /* An integer from 0 to 2^32 - 1. */
    ASN1_I64 = 9,                     /* An integer from -2^63 to 2^63 - 1. */
    ASN1_U64 = 10,                    /* An integer from 0 to 2^64 - 1. */
    ASN1_INTEGER = 11,                /* An integer of any length. */
    ASN1_UNSIGNED_INTEGER = 12,       /* An integer of any length that isn't negative. */
    ASN1_ENUMERATED = 13,             /* An enumerated value. */
    ASN1_NULL = 14,                   /* NULL. */
    ASN1_OCTET_STRING = 15,           /* An octet string. */
    ASN1_BIT_STRING = 16,             /* A bit string. */
    ASN1_UTF8_STRING = 17,            /* A character string in UTF-8. */
    ASN1_PRINTABLE_STRING = 18,       /* A character string of letters, digits and some signs. */
    ASN1_IA5_STRING = 19,             /* A character string in ASCII. */
    ASN1_VISIBLE_STRING = 20,         /* A character string of visible characters and spaces in ASCII. */
    ASN1_BMP_STRING = 21,             /* A character string in UTF-16. */
    ASN1_UNIVERSAL_STRING = 22,       /* A character string in UTF-32. */
    ASN1_OBJECT_IDENTIFIER = 23,      /* An object identifier. */
    ASN1_UTC_TIME = 24,               /* A date and time from 1950 to 2049. */
    ASN1_X509_TIME = 25,              /* A date and time without a fraction. */
    ASN1_GENERALIZED_TIME = 26,       /* A date and time, with a fraction or without. */
    ASN1_SEQUENCE = 27,               /* A sequence of any elements. */
    ASN1_SET = 28,                    /* A set of any elements. */
    ASN1_SEQUENCE_OF_INTEGER = 29,    /* A sequence of integers of any length. */
    ASN1_SET_OF_INTEGER = 30,         /* A set of integers of any length. */
};

/* Objects, for `pkix_check`. */
enum {
    PKIX_CERTIFICATE = 1,             /* Certificate (RFC 5280, 4.1). */
    PKIX_CRL = 2,                     /* CertificateList (RFC 5280, 5.1). */
    PKIX_REQUEST = 3,                 /* CertificationRequest (RFC 2986, 4.2). */
    PKIX_PUBLIC_KEY = 4,              /* SubjectPublicKeyInfo (RFC 5280, 4.1). */
    PKIX_PRIVATE_KEY = 5,             /* OneAsymmetricKey (RFC 5958, 2). */
    PKIX_EC_PRIVATE_KEY = 6,          /* ECPrivateKey (RFC 5915, 3). */
    PKIX_RSA_PRIVATE_KEY = 7,         /* RSAPrivateKey (RFC 8017, A.1.2). */
    PKIX_RSA_PUBLIC_KEY = 8,          /* RSAPublicKey (RFC 8017, A.1.1). */
    PKIX_ECDSA_SIGNATURE = 9,         /* ECDSA-Sig-Value (RFC 3279, 2.2.3). */
    PKIX_DIGEST_INFO = 10,            /* DigestInfo (RFC 8017, 9.2). */
    PKIX_SIGNED_DATA = 11,            /* ContentInfo (RFC 5652, 3) of signed data. */
    PKIX_TIMESTAMP_REQUEST = 12,      /* TimeStampReq (RFC 3161, 2.4.1). */
    PKIX_TIMESTAMP_RESPONSE = 13,     /* TimeStampResp (RFC 3161, 2.4.2). */
    PKIX_KEY = 14,                    /* A key: PKIX_PUBLIC_KEY to PKIX_RSA_PUBLIC_KEY. */
    PKIX_SIGNATURE = 15               /* A signature: PKIX_ECDSA_SIGNATURE to PKIX_SIGNED_DATA. */
};

/* Cuts off the element at the start of the octets.
 *
 * ASN1_OK: `element` says what it is, and is within the octets: octets[header_length] is its first contents octet, and
 * what follows is at octets[header_length + contents_length]. `element` stays as it was if there is an error:
 * ASN1_INVALID_TAG, ASN1_INVALID_LENGTH, or ASN1_SHORT_DATA, also of no octets. `error` is set in each case.
 *
 * An answer other than ASN1_SHORT_DATA stays the same with any octets behind these. With fewer than `needed` octets
 * behind these the answer is still ASN1_SHORT_DATA. So a program that reads a stream may wait for `needed` octets. */
uint32_t asn1_strip_tlv(const uint8_t *octets, size_t count, struct asn1_element *element, struct asn1_error *error);

/* Whether the octets are the one encoding of a value of the type, an ASN1_ number of a type.
 *
 * ASN1_OK: they are. Else the first error in the order of the octets, with ASN1_EXTRA_DATA if octets follow a value:
 * any but ASN1_INVALID_SIZE, ASN1_ENCODED_DEFAULT, ASN1_UNKNOWN_DEFINED_BY, ASN1_ALLOCATION_ERROR and
 * ASN1_BUFFER_TOO_SMALL. ASN1_UNKNOWN_TYPE: no type has this number. `error` is set in each case. */
uint32_t asn1_check(uint32_t type, const uint8_t *octets, size_t count, struct asn1_error *error);

/* Read the value of which the octets are the one encoding: a BOOLEAN; an INTEGER in the range of `int8_t`, `int16_t`,
 * `int32_t` or `int64_t`, if `bits` is 8, 16, 32 or 64.
 *
 * ASN1_OK: `value` is set. Else the errors of `asn1_check` of the type, or ASN1_UNKNOWN_TYPE for another number of
 * bits, and `value` stays as it was. `error` is set in each case. */
uint32_t asn1_read_bool(const uint8_t *octets, size_t count, bool *value, struct asn1_error *error);
uint32_t asn1_read_signed(uint32_t bits, const uint8_t *octets, size_t count, int64_t *value,
                          struct asn1_error *error);
uint32_t asn1_read_unsigned(uint32_t bits, const uint8_t *octets, size_t count, uint64_t *value,
                            struct asn1_error *error);

/* The bits of a BIT STRING: `count` octets from octets[start] on. */
struct asn1_bits {
    size_t start;
    size_t count;
    uint8_t padding;  /* how many low bits of the last octet are no bits of the string: 0 to 7 */
};

/* A date and a time of day in UTC. */
struct asn1_time {
    uint16_t year;         /* 0 to 9999 */
    uint8_t month;         /* 1 to 12 */
    uint8_t day;           /* 1 to 31 */
    uint8_t hour;          /* 0 to 23 */
    uint8_t minute;        /* 0 to 59 */
    uint8_t second;        /* 0 to 59 */
    uint32_t nanoseconds;  /* the fraction of a second, 0 to 999999999: 0 if there is none */
};

/* The same for a BIT STRING, a UTCTime (years 1950 to 2049), and a GeneralizedTime, with a fraction or without. */
uint32_t asn1_read_bits(const uint8_t *octets, size_t count, struct asn1_bits *value, struct asn1_error *error);
uint32_t asn1_read_utc_time(const uint8_t *octets, size_t count, struct asn1_time *value, struct asn1_error *error);
uint32_t asn1_read_generalized_time(const uint8_t *octets, size_t count, struct asn1_time *value,
                                    struct asn1_error *error);

/* The same for an OBJECT IDENTIFIER, whose dotted text, such as `2.5.4.3`, is left in `text`, which has `size` octets.
 *
 * ASN1_OK: the text is there, and `text_length` is how many octets it has. ASN1_BUFFER_TOO_SMALL: `text_length` is
 * above `size`, and `text` stays as it was. Else the errors of `asn1_check`, `text` stays as it was, and `text_length`
 * is 0. A buffer of 256 octets has room for each text. */
uint32_t asn1_read_oid(const uint8_t *octets, size_t count, char *text, size_t size, size_t *text_length,
                       struct asn1_error *error);

/* The contents octets of the SET OF with these elements, which are one after another in any order: the elements in
 * ascending order (X.690 11.6), each as often as it came in. Who signs a set, such as the attributes of signed data,
 * signs it in this order. Identifier and length octets of the set itself aren't written.
 *
 * ASN1_OK: they are in `contents`, which has `size` octets. `contents_length` is how many there are: as many as came
 * in. ASN1_BUFFER_TOO_SMALL: `contents_length` is above `size`, and `contents` stays as it was. Else the octets aren't
 * whole elements: ASN1_INVALID_TAG, ASN1_INVALID_LENGTH or ASN1_SHORT_DATA of the first that isn't one, `contents`
 * stays as it was, and `contents_length` is 0. `error` is set in each case. No octets are the set without elements.
 *
 * The time grows with the square of the number of elements: a thousand take some milliseconds. */
uint32_t asn1_set_of(const uint8_t *octets, size_t count, uint8_t *contents, size_t size, size_t *contents_length,
                     struct asn1_error *error);

/* Which form of a key or of a signature the octets have: the number of that object. It is the first form of which they
 * are the encoding, or, if they are of none, the one that the tags of their first elements tell. `pkix_check` tells of
 * them what it tells at that number. An object of one form is its own: its number is returned. 0: no object has this
 * number. Two integers are an RSAPublicKey and an ECDSA-Sig-Value: the caller says which is meant. */
uint32_t pkix_form(uint32_t object, const uint8_t *octets, size_t count);

/* Whether the octets are the one encoding of the object, a PKIX_ number; of PKIX_KEY and PKIX_SIGNATURE, of one of its
 * forms.
 *
 * ASN1_OK: they are. Else the first error in the order of the octets, with ASN1_EXTRA_DATA if octets follow the object:
 * any but ASN1_ALLOCATION_ERROR and ASN1_BUFFER_TOO_SMALL. ASN1_UNKNOWN_TYPE: no object has this number. `error` is
 * set in each case. Of a key or a signature the error is that of the form which `pkix_form` returns.
 *
 * The location of the error, such as `tbsCertificate.validity.notAfter`, is left in `place`, which has `size` octets,
 * if it has room for it; and `place_length` is set to how many octets the location has. It has none if there is no
 * error, or if the error is that of the whole. If `place_length` is above `size`, then `place` stays as it was.
 * A location has names of fields, as the documents have them, and numbers of items, counted from 0. The outermost is
 * first, and points are between. */
uint32_t pkix_check(uint32_t object, const uint8_t *octets, size_t count, char *place, size_t size,
                    size_t *place_length, struct asn1_error *error);

/* At which octet `pkix_check` rejects the octets, counted from 0, as `openssl asn1parse` counts. For most errors it is
 * where the element begins that is wrong: its identifier. ASN1_INVALID_TAG and ASN1_INVALID_LENGTH are where identifier
 * and length octets begin that can't be read. ASN1_SHORT_DATA is at the end of the element around what is missing, or
 * at that of the octets. ASN1_EXTRA_DATA is at the first octet that is left over.
 *
 * true: `octet` is set. Else it stays as it was: the octets are the one encoding of the object, no object has this
 * number, or `size` is below `count`. Of a key or a signature the octet is that of the form which `pkix_form` returns.
 *
 * `scratch`, which has `size` octets, is overwritten by copies of the octets, which are read in turn: one each time
 * that `count` can be halved, and some for each element around the error. */
bool pkix_error_octet(uint32_t object, const uint8_t *octets, size_t count, uint8_t *scratch, size_t size,
                      size_t *octet);

/* Leaves what an error's number means, such as `octets follow the value`, in `text`, which has `size` octets, and sets
 * `text_length` to how many octets that has: up to 64. ASN1_BUFFER_TOO_SMALL if `text_length` is above `size`. */
uint32_t asn1_error_text(uint32_t number, char *text, size_t size, size_t *text_length);

/* The version of the library: 0x001801 for 0.24.1. */
uint32_t asn1_version(void);

#ifdef __cplusplus
}
#endif

#endif
