//! What a time stamp says (RFC 3161, 2.4.2).

use crate::common::{Extensions, GeneralName};
use crate::timestamps::MessageImprint;

/// Accuracy (RFC 3161, 2.4.2), a SEQUENCE: how far the time may be off.
#[derive(asn1::Asn1Read, asn1::Asn1Write, Debug, Clone, Copy, PartialEq, Eq)]
pub struct Accuracy<'a> {
    /// Seconds.
    pub seconds: Option<asn1::BigInt<'a>>,
    /// Thousandths of a second: from 1 to 999, which isn't checked.
    #[implicit(0)]
    pub millis: Option<u16>,
    /// Millionths of a second: from 1 to 999, which isn't checked.
    #[implicit(1)]
    pub micros: Option<u16>,
}

/// TSTInfo (RFC 3161, 2.4.2), a SEQUENCE.
#[derive(asn1::Asn1Read, asn1::Asn1Write, Debug, Clone, PartialEq, Eq)]
pub struct TstInfo<'a> {
    /// The version, which is 1. Any from 0 to 255 is read.
    pub version: u8,
    /// The policy of the time stamp.
    pub policy: asn1::ObjectIdentifier,
    /// The digest of what is stamped.
    pub message_imprint: MessageImprint<'a>,
    /// The number of the time stamp.
    pub serial_number: asn1::BigInt<'a>,
    /// When the time stamp was made. A fraction has nine digits at most.
    pub gen_time: asn1::GeneralizedTime,
    /// How far the time may be off.
    pub accuracy: Option<Accuracy<'a>>,
    /// Whether all time stamps of this authority are in the order of their times.
    #[default(false)]
    pub ordering: bool,
    /// The number of the request.
    pub nonce: Option<asn1::BigInt<'a>>,
    /// Who made the time stamp.
    #[explicit(0)]
    pub tsa: Option<GeneralName<'a>>,
    /// The extensions.
    #[implicit(1)]
    pub extensions: Option<Extensions<'a>>,
}
