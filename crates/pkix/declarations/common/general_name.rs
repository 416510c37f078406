//! General names (RFC 5280, 4.2.1.6).

use crate::common::{DirectoryString, Name};

/// OtherName (RFC 5280, 4.2.1.6), a SEQUENCE: a name of a form that an identifier names.
#[derive(asn1::Asn1Read, asn1::Asn1Write, Debug, Clone, Copy, PartialEq, Eq)]
pub struct OtherName<'a> {
    /// The form.
    #[name("type-id")]
    pub type_id: asn1::ObjectIdentifier,
    /// The name: an element of the type that `type_id` defines.
    #[explicit(0, required = true)]
    pub value: asn1::Tlv<'a>,
}

/// EDIPartyName (RFC 5280, 4.2.1.6), a SEQUENCE.
#[derive(asn1::Asn1Read, asn1::Asn1Write, Debug, Clone, Copy, PartialEq, Eq)]
pub struct EdiPartyName<'a> {
    /// Who assigned the name.
    #[explicit(0)]
    pub name_assigner: Option<DirectoryString<'a>>,
    /// The name.
    #[explicit(1, required = true)]
    pub party_name: DirectoryString<'a>,
}

/// GeneralName (RFC 5280, 4.2.1.6), a CHOICE of nine.
#[derive(asn1::Asn1Read, asn1::Asn1Write, Debug, Clone, PartialEq, Eq)]
pub enum GeneralName<'a> {
    /// A name of another form.
    #[implicit(0)]
    OtherName(OtherName<'a>),
    /// An address of electronic mail.
    #[implicit(1)]
    Rfc822Name(asn1::IA5String<'a>),
    /// A name of the domain name system.
    #[implicit(2)]
    DnsName(asn1::IA5String<'a>),
    /// An ORAddress, whose elements aren't read.
    #[implicit(3)]
    X400Address(asn1::Sequence<'a>),
    /// A name of a directory.
    #[explicit(4)]
    DirectoryName(Name<'a>),
    /// A name of electronic data interchange.
    #[implicit(5)]
    EdiPartyName(EdiPartyName<'a>),
    /// A uniform resource identifier.
    #[implicit(6)]
    UniformResourceIdentifier(asn1::IA5String<'a>),
    /// The octets of an address of the internet: four or sixteen, or in name constraints twice as many. How many there
    /// are isn't checked.
    #[implicit(7)]
    IpAddress(&'a [u8]),
    /// A registered identifier.
    #[implicit(8)]
    RegisteredId(asn1::ObjectIdentifier),
}

/// GeneralNames (RFC 5280, 4.2.1.6), a SEQUENCE of at least one GeneralName.
pub type GeneralNames<'a> = asn1::SequenceOf<'a, GeneralName<'a>, 1>;
