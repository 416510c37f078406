//! Tags of every class, sets, and enums whose values have numbers: each form of the script for them, once.

use super::page::ResponderId;

/// How a search ended (RFC 4511, 4.1.9, some of its codes).
#[derive(asn1::Asn1Read, asn1::Asn1Write, Debug, Clone, Copy, PartialEq, Eq, Hash)]
pub enum ResultCode {
    /// The search found what there is.
    Success = 0,
    /// It took too long.
    TimeLimitExceeded = 3,
    /// The server has too much to do.
    Busy = 0x33,
    /// Any other reason.
    Other = 80,
}

/// INTEGER { v1(0), v2(1), v3(2) }, with these numbers alone.
#[derive(asn1::Asn1Read, asn1::Asn1Write, PartialEq)]
#[universal(2, implicit)]
pub enum Version {
    V1 = 0,
    V2 = 1,
    V3 = 2,
}

/// [PRIVATE 31] IMPLICIT ENUMERATED { off(0), on(1) }
#[derive(asn1::Asn1Read, asn1::Asn1Write, PartialEq)]
#[private(31, implicit)]
pub enum Switch {
    Off = 0,
    On = 1,
}

/// NumericString's tag on the characters of an IA5String.
#[universal(18, implicit)]
pub type Numeric<'a> = asn1::IA5String<'a>;

/// [APPLICATION 3] IMPLICIT SEQUENCE
#[derive(asn1::Asn1Read, asn1::Asn1Write, PartialEq)]
#[application(3, implicit)]
pub struct Report<'a> {
    /// How it ended.
    pub code: ResultCode,
    /// How often, under a tag in place of its own.
    #[application(1, implicit)]
    pub count: Option<u8>,
    /// Who wrote it, under a tag around the string's own.
    #[private(2, explicit)]
    pub by: Numeric<'a>,
}

/// [APPLICATION 4] EXPLICIT Report
#[application(4, explicit)]
pub type Sealed<'a> = Report<'a>;

/// A set, whose fields are in the order of their tags.
#[derive(asn1::Asn1Read, asn1::Asn1Write, PartialEq)]
#[set]
pub struct Settings {
    /// The version.
    pub version: Version,
    /// The code.
    #[default(7)]
    #[implicit(0)]
    pub level: u8,
    /// Whether it is on.
    pub switch: Switch,
}

/// [APPLICATION 5] IMPLICIT SET: a tag of the application in place of a set's own.
#[derive(asn1::Asn1Read, asn1::Asn1Write, PartialEq)]
#[set]
#[application(5, implicit)]
pub struct Preferences<'a> {
    /// The code.
    pub code: Option<u8>,
    /// Octets.
    pub octets: &'a [u8],
    /// The version.
    #[implicit(0)]
    pub version: Option<Version>,
}

/// A choice of a report, a choice under a tag, and a number under a tag of the application.
#[derive(asn1::Asn1Read, asn1::Asn1Write, PartialEq)]
pub enum Entry<'a> {
    /// A report.
    Report(Report<'a>),
    /// A choice, which has no tag of its own.
    #[explicit(1)]
    Either(Either<'a>),
    /// A number.
    #[application(9, implicit)]
    Number(u16),
}

/// Octets, or none.
#[derive(asn1::Asn1Read, asn1::Asn1Write, PartialEq)]
pub enum Either<'a> {
    /// Octets.
    Octets(&'a [u8]),
    /// None.
    None(asn1::Null),
}

/// Nine alternatives, of which one is a choice without a tag of its own.
#[derive(asn1::Asn1Read, asn1::Asn1Write)]
pub enum Nine<'a> {
    /// A number.
    #[implicit(0)]
    First(u8),
    /// Another.
    #[implicit(1)]
    Second(u8),
    /// Another.
    #[implicit(2)]
    Third(u8),
    /// Another.
    #[explicit(3)]
    Fourth(u8),
    /// Another.
    #[application(4, implicit)]
    Fifth(u8),
    /// Another.
    #[private(5, implicit)]
    Sixth(u8),
    /// A code.
    Code(ResultCode),
    /// Octets or none.
    Either(Either<'a>),
    /// Whether.
    Flag(bool),
}

/// Two choices without a tag of their own, of which one is declared elsewhere.
#[derive(asn1::Asn1Read, asn1::Asn1Write)]
pub enum Both<'a> {
    /// Octets or none.
    Either(Either<'a>),
    /// Who answers.
    Responder(ResponderId<'a>),
}

/// What may be missing behind a choice, with choices among it.
#[derive(asn1::Asn1Read, asn1::Asn1Write, PartialEq)]
pub struct Header<'a> {
    /// Octets or none.
    pub by: Either<'a>,
    /// A number.
    #[explicit(0)]
    pub number: Option<u8>,
    /// A code.
    #[explicit(1)]
    pub code: Option<ResultCode>,
    /// A choice.
    #[explicit(2)]
    pub entry: Option<Entry<'a>>,
    /// Octets.
    #[implicit(3)]
    pub octets: Option<&'a [u8]>,
    /// A report.
    #[explicit(4)]
    pub report: Option<Report<'a>>,
    /// Whether.
    #[implicit(5)]
    pub flag: Option<bool>,
    /// Who answers.
    #[explicit(6)]
    pub responder: Option<ResponderId<'a>>,
}

/// Twenty fields in a row that may be missing, and a choice without a tag before them.
#[derive(asn1::Asn1Read, asn1::Asn1Write)]
pub struct Inventory<'a> {
    /// Octets or none.
    pub by: Option<Either<'a>>,
    /// A number.
    #[explicit(0)]
    pub number: Option<u8>,
    /// A choice.
    #[explicit(1)]
    pub entry: Option<Entry<'a>>,
    /// A report.
    #[implicit(2)]
    pub report: Option<Report<'a>>,
    /// Octets or none.
    #[explicit(3)]
    pub either: Option<Either<'a>>,
    /// A code.
    #[explicit(4)]
    pub code: Option<ResultCode>,
    /// Octets.
    #[implicit(5)]
    pub octets: Option<&'a [u8]>,
    /// Whether.
    #[implicit(6)]
    pub flag: Option<bool>,
    /// Who answers.
    #[explicit(7)]
    pub responder: Option<ResponderId<'a>>,
    /// Reports.
    #[implicit(8)]
    pub reports: Option<asn1::SequenceOf<'a, Report<'a>>>,
    /// A set.
    #[implicit(9)]
    pub settings: Option<Settings>,
    /// A version.
    #[implicit(10)]
    pub version: Option<Version>,
    /// Whether it is on.
    #[explicit(11)]
    pub switch: Option<Switch>,
    /// A choice.
    #[explicit(12)]
    pub second_entry: Option<Entry<'a>>,
    /// A report.
    #[explicit(13)]
    pub second_report: Option<Report<'a>>,
    /// Octets or none.
    #[explicit(14)]
    pub second_either: Option<Either<'a>>,
    /// A code.
    #[implicit(15)]
    pub second_code: Option<ResultCode>,
    /// Octets.
    #[explicit(16)]
    pub second_octets: Option<&'a [u8]>,
    /// Whether.
    #[explicit(17)]
    pub second_flag: Option<bool>,
    /// Who answers.
    #[explicit(18)]
    pub second_responder: Option<ResponderId<'a>>,
    /// A sealed report.
    #[explicit(19)]
    pub sealed: Option<Sealed<'a>>,
}

/// Two choices without a tag of their own that may be missing, of which one is declared elsewhere.
#[derive(asn1::Asn1Read, asn1::Asn1Write)]
pub struct Neither<'a> {
    /// Octets or none.
    pub either: Option<Either<'a>>,
    /// Who answers.
    pub responder: Option<ResponderId<'a>>,
}

/// A field that may be missing, and another with its tag, behind one that is always there.
#[derive(asn1::Asn1Read, asn1::Asn1Write, Debug, Clone, Copy, PartialEq)]
pub struct Around {
    /// A number.
    #[implicit(0)]
    pub before: Option<u8>,
    /// Whether.
    pub flag: bool,
    /// Another number.
    #[implicit(0)]
    pub after: Option<u8>,
}
