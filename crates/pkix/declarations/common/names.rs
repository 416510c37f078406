//! Names and attributes (RFC 5280, 4.1.2.4; RFC 2986, 4.1; RFC 5652, 5.3).

/// AttributeTypeAndValue (RFC 5280, 4.1.2.4), a SEQUENCE: a part of a name.
#[derive(asn1::Asn1Read, asn1::Asn1Write, Debug, Clone, Copy, PartialEq, Eq)]
pub struct AttributeTypeAndValue<'a> {
    /// The attribute's type.
    #[name("type")]
    pub type_id: asn1::ObjectIdentifier,
    /// Its value: an element of the type that `type_id` defines.
    pub value: asn1::Tlv<'a>,
}

/// Name (RFC 5280, 4.1.2.4), an RDNSequence: a SEQUENCE of sets of attributes. Of a set the RFC says `SIZE (1..MAX)`,
/// which isn't checked.
pub type Name<'a> = asn1::SequenceOf<'a, asn1::SetOf<'a, AttributeTypeAndValue<'a>>>;

/// Attribute (RFC 2986, 4.1; RFC 5652, 5.3), a SEQUENCE: a type and a set of values. Of the set RFC 2986 says
/// `SIZE (1..MAX)`, which isn't checked; RFC 5652 allows it to be empty.
#[derive(asn1::Asn1Read, asn1::Asn1Write, Debug, Clone, PartialEq, Eq)]
pub struct Attribute<'a> {
    /// The attribute's type.
    #[name("type")]
    pub type_id: asn1::ObjectIdentifier,
    /// Its values: elements of the type that `type_id` defines.
    pub values: asn1::SetOf<'a, asn1::Tlv<'a>>,
}

/// Attributes (RFC 2986, 4.1), a SET OF Attribute.
pub type Attributes<'a> = asn1::SetOf<'a, Attribute<'a>>;

/// DirectoryString (RFC 5280, 4.1.2.4), a CHOICE: the value of most attributes of names. Of each string the RFC says
/// `SIZE (1..MAX)`, which isn't checked.
#[derive(asn1::Asn1Read, asn1::Asn1Write, Debug, Clone, Copy, PartialEq, Eq)]
pub enum DirectoryString<'a> {
    /// teletexString: the RFC allows it only in names that stood before.
    Teletex(asn1::TeletexString<'a>),
    /// printableString.
    Printable(asn1::PrintableString<'a>),
    /// universalString: the RFC allows it only in names that stood before.
    Universal(asn1::UniversalString<'a>),
    /// utf8String.
    Utf8(asn1::Utf8String<'a>),
    /// bmpString: the RFC allows it only in names that stood before.
    Bmp(asn1::BMPString<'a>),
}
