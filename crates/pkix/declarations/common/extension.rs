//! Extensions (RFC 5280, 4.1.2.9).

/// Extension (RFC 5280, 4.1), a SEQUENCE.
#[derive(asn1::Asn1Read, asn1::Asn1Write, Debug, Clone, Copy, PartialEq, Eq)]
pub struct Extension<'a> {
    /// Which extension it is.
    #[name("extnID")]
    pub extn_id: asn1::ObjectIdentifier,
    /// Whether a reader that doesn't know the extension has to reject what carries it.
    #[default(false)]
    pub critical: bool,
    /// The encoding of its value, whose type `extn_id` defines.
    pub extn_value: &'a [u8],
}

/// Extensions (RFC 5280, 4.1), a SEQUENCE of at least one Extension.
pub type Extensions<'a> = asn1::SequenceOf<'a, Extension<'a>, 1>;
