//! The workloads of `crates/speed`, over the original crate, for `beside_original`: the same numbers, the same
//! answers. The structures are written as its derives write them.

use asn1::*;
use std::hint::black_box;

const FAILED: u64 = u64::MAX;

/// A value of which a number is made, so that it has to be read in full.
trait Answer {
    fn answer(self) -> u64;
}

macro_rules! answers {
    ($($of:ty, $value:ident => $number:expr;)*) => {
        $(impl<'a> Answer for $of { fn answer(self) -> u64 { let $value = self; $number } })*
    };
}

answers! {
    bool, value => value.into();
    u8, value => value.into();
    i64, value => value.unsigned_abs();
    u64, value => value;
    &'a [u8], value => value.last().map_or(0, |octet| u64::from(*octet) + value.len() as u64);
    Tlv<'a>, value => value.data().answer();
    BitString<'a>, value => value.as_bytes().answer();
    Utf8String<'a>, value => value.as_str().as_bytes().answer();
    ObjectIdentifier, value => value.as_der().answer();
    UtcTime, value => value.as_datetime().second().into();
    EcdsaSigValue<'a>, value => value.r.as_bytes().answer() + value.s.as_bytes().answer();
    Certificate<'a>, value => value.tbs_certificate.serial_number.as_bytes().answer();
    SequenceOf<'a, u64>, value => value.fold(0, u64::wrapping_add);
    SetOf<'a, u64>, value => value.fold(0, u64::wrapping_add);
}

/// A structure.
macro_rules! structure {
    ($name:ident $(<$lifetime:lifetime>)? { $($field:ident: $of:ty,)* }) => {
        struct $name $(<$lifetime>)? { $($field: $of),* }

        impl<'a> SimpleAsn1Readable<'a> for $name $(<$lifetime>)? {
            const TAG: Tag = <Sequence<'_> as SimpleAsn1Readable<'_>>::TAG;

            fn parse_data(data: &'a [u8]) -> ParseResult<Self> {
                parse(data, |parser| Ok($name {
                    $($field: parser.read_element().map_err(|error: ParseError| {
                        error.add_location(ParseLocation::Field(concat!(stringify!($name), "::", stringify!($field))))
                    })?),*
                }))
            }
        }

        impl $(<$lifetime>)? SimpleAsn1Writable for $name $(<$lifetime>)? {
            const TAG: Tag = <Sequence<'_> as SimpleAsn1Readable<'_>>::TAG;
            type Error = WriteError;

            fn write_data(&self, dest: &mut WriteBuf) -> WriteResult {
                let mut writer = Writer::new(dest);
                $(writer.write_element(&self.$field)?;)*
                Ok(())
            }

            fn data_length(&self) -> Option<usize> {
                Some(0 $(+ self.$field.encoded_length()?)*)
            }
        }
    };
}

/// A field with a default.
macro_rules! defaulted {
    ($name:ident: $of:ty = $default:expr) => {
        struct $name($of);

        impl<'a> Asn1Readable<'a> for $name {
            fn parse(parser: &mut Parser<'a>) -> ParseResult<Self> {
                Ok($name(from_optional_default(
                    parser.read_element::<Option<$of>>()?,
                    $default,
                )?))
            }

            fn can_parse(_: Tag) -> bool {
                true
            }
        }

        impl Asn1Writable for $name {
            type Error = WriteError;

            fn write(&self, writer: &mut Writer<'_>) -> WriteResult {
                writer.write_element(&to_optional_default(&self.0, &$default))
            }

            fn encoded_length(&self) -> Option<usize> {
                to_optional_default(&self.0, &$default).encoded_length()
            }
        }
    };
}

structure!(EcdsaSigValue<'a> { r: BigUint<'a>, s: BigUint<'a>, });
structure!(AlgorithmIdentifier<'a> { algorithm: ObjectIdentifier, parameters: Option<Tlv<'a>>, });
structure!(AttributeTypeAndValue<'a> { type_id: ObjectIdentifier, value: Tlv<'a>, });
type Name<'a> = SequenceOf<'a, SetOf<'a, AttributeTypeAndValue<'a>>>;
structure!(Validity {
    not_before: Time,
    not_after: Time,
});
structure!(SubjectPublicKeyInfo<'a> { algorithm: AlgorithmIdentifier<'a>, subject_public_key: BitString<'a>, });
defaulted!(Critical: bool = false);
structure!(Extension<'a> { extn_id: ObjectIdentifier, critical: Critical, extn_value: &'a [u8], });
defaulted!(Version: Explicit<u8, 0> = Explicit::new(0));
structure!(TbsCertificate<'a> {
    version: Version,
    serial_number: BigInt<'a>,
    signature: AlgorithmIdentifier<'a>,
    issuer: Name<'a>,
    validity: Validity,
    subject: Name<'a>,
    subject_public_key_info: SubjectPublicKeyInfo<'a>,
    issuer_unique_id: Option<Implicit<BitString<'a>, 1>>,
    subject_unique_id: Option<Implicit<BitString<'a>, 2>>,
    extensions: Option<Explicit<SequenceOf<'a, Extension<'a>, 1>, 3>>,
});
structure!(Certificate<'a> {
    tbs_certificate: TbsCertificate<'a>,
    signature_algorithm: AlgorithmIdentifier<'a>,
    signature_value: BitString<'a>,
});

enum Time {
    UtcTime(UtcTime),
    GeneralTime(X509GeneralizedTime),
}

impl<'a> Asn1Readable<'a> for Time {
    fn parse(parser: &mut Parser<'a>) -> ParseResult<Self> {
        let tlv = parser.read_element::<Tlv<'_>>()?;
        if UtcTime::can_parse(tlv.tag()) {
            return Ok(Time::UtcTime(tlv.parse()?));
        }
        if X509GeneralizedTime::can_parse(tlv.tag()) {
            return Ok(Time::GeneralTime(tlv.parse()?));
        }
        Err(ParseError::new(ParseErrorKind::UnexpectedTag {
            actual: tlv.tag(),
        }))
    }

    fn can_parse(tag: Tag) -> bool {
        UtcTime::can_parse(tag) || X509GeneralizedTime::can_parse(tag)
    }
}

impl Asn1Writable for Time {
    type Error = WriteError;

    fn write(&self, writer: &mut Writer<'_>) -> WriteResult {
        match self {
            Time::UtcTime(time) => writer.write_element(time),
            Time::GeneralTime(time) => writer.write_element(time),
        }
    }

    fn encoded_length(&self) -> Option<usize> {
        match self {
            Time::UtcTime(time) => Asn1Writable::encoded_length(time),
            Time::GeneralTime(time) => Asn1Writable::encoded_length(time),
        }
    }
}

/// Reads this many elements, which follow one another.
#[inline(never)]
fn read<'a, T: Asn1Readable<'a> + Answer>(octets: &'a [u8], times: u64) -> u64 {
    let sum = parse(octets, |parser| -> ParseResult<u64> {
        let mut sum = 0u64;
        for _ in 0..times {
            sum = sum.wrapping_add(parser.read_element::<T>()?.answer());
        }
        Ok(sum)
    });
    sum.unwrap_or(FAILED)
}

/// Reads this many encodings of the same length, which follow one another, and each of which is rejected.
#[inline(never)]
fn reject<'a, T: Asn1Readable<'a>>(octets: &'a [u8], times: u64) -> u64 {
    let mut sum = 0u64;
    for one in octets.chunks_exact(octets.len() / times as usize) {
        match parse_single::<T>(one) {
            Ok(_) => return FAILED,
            Err(error) => match error.kind() {
                ParseErrorKind::InvalidValue => sum += 1,
                ParseErrorKind::UnexpectedTag { .. } => sum += 2,
                _ => sum += 3,
            },
        }
    }
    sum
}

/// Writes a value this often.
#[inline(never)]
fn write_often<T: Asn1Writable<Error = WriteError>>(value: &T, times: u64) -> u64 {
    let mut sum = 0u64;
    for _ in 0..times {
        match write_single(black_box(value)) {
            Ok(octets) => sum = sum.wrapping_add((&*octets).answer()),
            Err(_) => return FAILED,
        }
    }
    sum
}

/// Reads a value once and writes it this often.
#[inline(never)]
fn write<'a, T: Asn1Readable<'a> + Asn1Writable<Error = WriteError>>(
    octets: &'a [u8],
    times: u64,
) -> u64 {
    parse_single::<T>(octets).map_or(FAILED, |value| write_often(&value, times))
}

/// Reads this many elements, which follow one another, and writes each.
#[inline(never)]
fn rewrite<'a, T: Asn1Readable<'a> + Asn1Writable<Error = WriteError>>(
    octets: &'a [u8],
    times: u64,
) -> u64 {
    let sum = parse(octets, |parser| -> ParseResult<u64> {
        let mut sum = 0u64;
        for _ in 0..times {
            let written = write_single(&parser.read_element::<T>()?);
            sum = sum.wrapping_add(written.map_or(FAILED, |octets| (&*octets).answer()));
        }
        Ok(sum)
    });
    sum.unwrap_or(FAILED)
}

/// The items of a list, as an array.
fn numbers(octets: &[u8]) -> Vec<u64> {
    parse_single::<SequenceOf<'_, u64>>(octets).map_or(Vec::new(), Iterator::collect)
}

/// Writes this often a number within four sequences, each of which patches its length.
#[inline(never)]
fn write_by_closures(times: u64) -> u64 {
    const SEQUENCE: Tag = <Sequence<'_> as SimpleAsn1Readable<'_>>::TAG;
    fn one(dest: &mut WriteBuf) -> WriteResult {
        Writer::new(dest).write_element(&1u64)
    }
    fn within(dest: &mut WriteBuf, body: impl FnOnce(&mut WriteBuf) -> WriteResult) -> WriteResult {
        Writer::new(dest).write_tlv(SEQUENCE, None, body)
    }
    let mut sum = 0u64;
    for _ in 0..times {
        let written = asn1::write(|writer| {
            writer.write_tlv(SEQUENCE, None, |dest| {
                within(dest, |dest| within(dest, |dest| within(dest, one)))
            })
        });
        sum = sum.wrapping_add(written.map_or(FAILED, |octets: Vec<u8>| (&*octets).answer()));
    }
    sum
}

/// Does the workload of this number: reads this often what the octets hold, or writes it.
///
/// # Safety
///
/// `octets` points at `length` octets.
#[unsafe(no_mangle)]
pub unsafe extern "C" fn speed(workload: u32, octets: *const u8, length: usize, times: u64) -> u64 {
    let octets = unsafe { std::slice::from_raw_parts(octets, length) };
    match workload {
        0 => read::<Tlv<'_>>(octets, times),
        1 => read::<bool>(octets, times),
        2 => read::<u8>(octets, times),
        3 => read::<i64>(octets, times),
        4 => read::<u64>(octets, times),
        5 => read::<ObjectIdentifier>(octets, times),
        6 => read::<Utf8String<'_>>(octets, times),
        7 => read::<UtcTime>(octets, times),
        8 => read::<&[u8]>(octets, times),
        9 => read::<BitString<'_>>(octets, times),
        10 => read::<EcdsaSigValue<'_>>(octets, times),
        11 => read::<Certificate<'_>>(octets, times),
        12 => read::<SequenceOf<'_, u64>>(octets, times),
        13 => read::<SetOf<'_, u64>>(octets, times),
        14 => reject::<bool>(octets, times),
        15 => reject::<u64>(octets, times),
        16 => reject::<Utf8String<'_>>(octets, times),
        17 => reject::<EcdsaSigValue<'_>>(octets, times),
        18 => reject::<Certificate<'_>>(octets, times),
        19 => write::<bool>(octets, times),
        20 => write::<u8>(octets, times),
        21 => write::<i64>(octets, times),
        22 => write::<u64>(octets, times),
        23 => write::<ObjectIdentifier>(octets, times),
        24 => write::<EcdsaSigValue<'_>>(octets, times),
        25 => write_by_closures(times),
        26 => write::<SequenceOf<'_, SequenceOf<'_, SequenceOf<'_, SequenceOf<'_, u64>>>>>(
            octets, times,
        ),
        27 => rewrite::<SequenceOf<'_, u64>>(octets, times),
        28 => rewrite::<Certificate<'_>>(octets, times),
        29 => write_often(&SequenceOfWriter::new(&*numbers(octets)), times),
        30 => write_often(&SetOfWriter::new(&*numbers(octets)), times),
        _ => FAILED,
    }
}
