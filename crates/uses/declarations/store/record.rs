//! The records of a store.

/// A record: a number, a name, and a note if there is one.
#[derive(asn1::Asn1Read, asn1::Asn1Write, Debug, Clone, Copy, PartialEq, Eq)]
pub struct Record<'a> {
    /// The number.
    pub number: u64,
    /// The name.
    pub name: asn1::Utf8String<'a>,
    /// The note.
    #[implicit(0)]
    pub note: Option<asn1::Utf8String<'a>>,
}

/// The records of a store, in their order.
pub type Records<'a> = asn1::SequenceOf<'a, Record<'a>>;
