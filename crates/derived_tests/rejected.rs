// What tools/derive rejects: declarations with a line between them, each with the reason at the line that it names, and
// with the section of docs/OWN_TYPES.md that it names, unless this is "What the script prints".

#[derive(asn1::Asn1Read)]
struct Tree<'a> { //~ `Tree` is recursive: it has no form -> What has no form
    branches: Option<asn1::SequenceOf<'a, Tree<'a>>>,
}

#[derive(asn1::Asn1Read)]
struct Left<'a> { //~ `Left` is recursive: it has no form -> What has no form
    right: Right<'a>,
}
#[derive(asn1::Asn1Read)]
enum Right<'a> {
    Left(Box<Left<'a>>),
    Octets(&'a [u8]),
}

#[derive(asn1::Asn1Read)]
struct Overlap {
    first: Option<u64>,
    second: Option<bool>,
    third: i8, //~ a tag of `third` is one of `first` too, from which it is told by its tag
}

#[derive(asn1::Asn1Read)]
struct Defaults {
    #[default(1)]
    first: u8,
    second: u16, //~ a tag of `second` is one of `first` too, from which it is told by its tag
}

#[derive(asn1::Asn1Read)]
struct AnyFirst<'a> {
    any: Option<asn1::Tlv<'a>>,
    known: bool, //~ a tag of `known` is one of `any` too, from which it is told by its tag
}

#[derive(asn1::Asn1Read)]
struct AfterChoice {
    either: Option<Either>,
    flag: bool, //~ a tag of `flag` is one of `either` too, from which it is told by its tag
}
#[derive(asn1::Asn1Read)]
enum Either {
    Flag(bool),
    Number(u64),
}

#[derive(asn1::Asn1Read)]
enum SameTag {
    One(u8),
    Other(i64), //~ a tag of `Other` is one of `One` too, from which it is told by its tag
}

#[derive(asn1::Asn1Read)]
struct Sized {
    #[size(1)] //~ the attribute `size` isn't known
    numbers: u8,
}

#[derive(asn1::Asn1Read)]
struct Unnamed(u8); //~ `Unnamed` has no named fields

#[derive(asn1::Asn1Read)]
enum NoField {
    Nothing, //~ `Nothing` has no unnamed field and no number: a variant has exactly one -> Values with numbers
}

#[derive(asn1::Asn1Read)]
enum TwoFields {
    Both(u8, bool), //~ `Both` has more than one field: a variant has exactly one -> A choice
}

#[derive(asn1::Asn1Read)]
struct Generic<T> { //~ type parameters have no form here: a declaration has one lifetime at most -> What has no form
    value: T,
}

#[derive(asn1::Asn1Read)]
struct TwoLives<'a, 'b> { //~ a declaration has one lifetime at most, and no bounds -> What has no form
    value: &'a [u8],
}

#[derive(asn1::Asn1Read)]
struct NotOptional {
    #[explicit(0)]
    value: u8, //~ `value` has a tag: either it is an option, or the tag says `required = true`
}

#[derive(asn1::Asn1Read)]
struct OptionalAndRequired {
    #[implicit(0, required = true)]
    value: Option<u8>, //~ `value` has a tag: either it is an option, or the tag says `required = true`
}

#[derive(asn1::Asn1Read)]
struct TwoTags {
    #[implicit(0)]
    #[explicit(1)]
    value: Option<u8>, //~ `value` is both implicit and explicit
}

#[derive(asn1::Asn1Read)]
struct ImplicitChoice {
    #[implicit(0)]
    either: Option<Either>, //~ `Either` is implicit, and has no tag of its own
}
#[derive(asn1::Asn1Read)]
enum Either {
    Flag(bool),
    Number(u64),
}

#[derive(asn1::Asn1Read)]
struct TwiceMissing {
    value: Option<Option<u8>>, //~ an option or a default of what may be missing itself -> What has no form
}

#[derive(asn1::Asn1Read)]
struct Written<'a> {
    items: asn1::SequenceOfWriter<'a, u8>, //~ `items` is a list made in code, and may be only in a struct that isn't read -> An error of one's own
}

#[derive(asn1::Asn1Read)]
struct NoNumber {
    #[implicit(ZERO)]
    value: Option<u8>, //~ `implicit` without a number
}

#[derive(asn1::Asn1Read)]
struct NoLiteral {
    #[default(VERSION)]
    value: u8, //~ `VERSION` is no value of `u8`: a default is a Boolean, a number, octets of a `[u8; N]`, a value of an enum with numbers, or a constant -> A default of another type
}

#[derive(asn1::Asn1Read)]
struct OptionalDefault {
    #[default(1)]
    value: Option<u8>, //~ `value` has a default, so it is neither an option nor required
}

#[derive(Debug, Clone)]
struct NoDerive { //~ `NoDerive` derives neither `Asn1Read` nor `Asn1Write`
    value: u8,
}

#[derive(asn1::Asn1DefinedByRead, asn1::Asn1DefinedByWrite)]
enum Undeclared {
    #[defined_by(SOME_OID)]
    Number(i32), //~ `SOME_OID` is no constant of an identifier or a number that is declared here -> A value that an item defines
}

const SOME_OID: asn1::ObjectIdentifier = asn1::oid!(1, 2, 3);
const SAME_OID: asn1::ObjectIdentifier = asn1::oid!(1, 2, 3);
#[derive(asn1::Asn1DefinedByRead, asn1::Asn1DefinedByWrite)]
enum SameIdentifier {
    #[defined_by(SOME_OID)]
    Number(i32),
    #[defined_by(SAME_OID)]
    Flag(bool), //~ `Flag` has the item of `Number` -> A value that an item defines
}

const SOME_OID: asn1::ObjectIdentifier = asn1::oid!(1, 2, 3);
#[derive(asn1::Asn1DefinedByRead, asn1::Asn1DefinedByWrite)]
enum DefaultFirst<'a> {
    #[default]
    Other(asn1::ObjectIdentifier, asn1::Tlv<'a>), //~ `Other` is the default, and not the last variant -> A value that an item defines
    #[defined_by(SOME_OID)]
    Number(i32),
}

const SOME_OID: asn1::ObjectIdentifier = asn1::oid!(1, 2, 3);
#[derive(asn1::Asn1DefinedByRead, asn1::Asn1DefinedByWrite)]
enum DefaultOfANumber {
    #[defined_by(SOME_OID)]
    Number(i32),
    #[default]
    Other(asn1::ObjectIdentifier, u8), //~ `Other` is the default, and not of the types `ObjectIdentifier` and `Tlv` -> A value that an item defines
}

#[derive(asn1::Asn1DefinedByRead, asn1::Asn1DefinedByWrite)]
enum DefaultAlone<'a> { //~ `DefaultAlone` has no variant of an item -> A value that an item defines
    #[default]
    Other(asn1::ObjectIdentifier, asn1::Tlv<'a>),
}

#[derive(asn1::Asn1DefinedByRead, asn1::Asn1DefinedByWrite)]
enum NoIdentifier {
    Number(i32), //~ `Number` has neither `#[defined_by(..)]` nor `#[default]` alone -> A value that an item defines
}

#[derive(asn1::Asn1Read)]
enum ChoiceWithDefault {
    #[default]
    Number(i32), //~ an attribute that `Number` can't have
}

const SOME_OID: asn1::ObjectIdentifier = asn1::oid!(1, 2, 3);
#[derive(asn1::Asn1Read, asn1::Asn1DefinedByRead)]
enum BothDerives { //~ `BothDerives` is defined by an item: an enum with no other derive of `asn1` -> A value that an item defines
    #[defined_by(SOME_OID)]
    Number(i32),
}

const SOME_OID: asn1::ObjectIdentifier = asn1::oid!(1, 2, 3);
#[derive(asn1::Asn1DefinedByRead, asn1::Asn1DefinedByWrite)]
enum Content {
    #[defined_by(SOME_OID)]
    Number(i32),
}
#[derive(asn1::Asn1Read)]
struct NoItem {
    content: Content, //~ `content` is defined by an item: it follows that, with `#[defined_by(..)]` -> A value that an item defines
}

const SOME_OID: asn1::ObjectIdentifier = asn1::oid!(1, 2, 3);
#[derive(asn1::Asn1DefinedByRead, asn1::Asn1DefinedByWrite)]
enum Content {
    #[defined_by(SOME_OID)]
    Number(i32),
}
#[derive(asn1::Asn1Read)]
struct MayBeMissing {
    kind: asn1::DefinedByMarker<asn1::ObjectIdentifier>,
    #[defined_by(kind)]
    content: Option<Content>, //~ `content` is defined by an item: it is there, with an explicit tag or none -> What has no form
}

#[derive(asn1::Asn1Read)]
struct NumberByItem {
    kind: asn1::DefinedByMarker<asn1::ObjectIdentifier>,
    #[defined_by(kind)]
    content: u8, //~ `content` is defined by an item, and its type is not -> A value that an item defines
}

use crate::content::Content;
#[derive(asn1::Asn1Read)]
struct TwoMarkers {
    kind: asn1::DefinedByMarker<asn1::ObjectIdentifier>, //~ `kind` marks an item: `#[defined_by(kind)]` has to follow, with no other marker between -> A value that an item defines
    other: asn1::DefinedByMarker<asn1::ObjectIdentifier>,
    #[defined_by(kind)]
    content: Content,
}

#[derive(asn1::Asn1Read)]
struct OnlyMarked {
    kind: asn1::DefinedByMarker<asn1::ObjectIdentifier>, //~ `kind` marks an item: `#[defined_by(kind)]` has to follow, with no other marker between -> A value that an item defines
    number: u8,
}

use crate::content::Content;
#[derive(asn1::Asn1Read)]
struct Unmarked {
    kind: asn1::ObjectIdentifier,
    #[defined_by(kind)]
    content: Content, //~ `content` isn't after the marker of its item -> A value that an item defines
}

const WRONG: asn1::ObjectIdentifier = asn1::oid!(1, 40, 1); //~ `WRONG` is no identifier: its second number is below 40 after 0 and 1 -> A value that an item defines

const LONE: asn1::ObjectIdentifier = asn1::oid!(1); //~ `LONE` isn't written as two or more numbers

#[derive(asn1::Asn1Read)]
struct NoType {
    value: Vec<u8>, //~ `Vec` is no type of the library, and neither declared nor imported here -> A simple type
}

#[derive(asn1::Asn1Read)]
struct Referred<'a> {
    value: &'a bool, //~ a reference other than one to `[u8]` isn't read
}

#[derive(asn1::Asn1Read)]
struct Value { //~ `Value` is a word of the library, which this file uses: name it otherwise
    value: bool,
}

#[derive(asn1::Asn1Read)]
struct Twice {
    value: bool,
}
#[derive(asn1::Asn1Read)]
struct Twice { //~ `Twice` is declared twice
    value: bool,
}

fn main() {} //~ `fn` isn't a struct, an enum, an alias or a constant

#[derive(asn1::Asn1Read)]
struct OfRattle {
    ensures: bool, //~ `ensures` is a word of Rust or Rattle: name it otherwise
}

#[derive(asn1::Asn1Read)]
struct Ghost {
    ghost: bool, //~ `ghost` is a word of Rust or Rattle: name it otherwise
}

#[derive(asn1::Asn1Read)]
struct Raw {
    r#type: bool, //~ an identifier by `r#`: name it otherwise
}

#[derive(asn1::Asn1Read)]
struct FieldTwice {
    value: bool,
    value: u8, //~ `value` is declared twice
}

#[derive(asn1::Asn1Read)]
struct ImplicitElement<'a> {
    #[implicit(0, required = true)]
    value: asn1::Tlv<'a>, //~ `Tlv<'a>` is implicit, and has no tag of its own
}

#[derive(asn1::Asn1Read)]
struct Static {
    value: &'static [u8], //~ a lifetime that `Static` doesn't declare
}

#[derive(asn1::Asn1Read)]
struct OtherLife<'a> {
    value: asn1::BigInt<'b>, //~ a lifetime that `OtherLife` doesn't declare
}

#[derive(asn1::Asn1Read)]
struct NoLife {
    value: asn1::BigInt, //~ `BigInt` lacks its lifetime, its type or its number, or has another
}

#[derive(asn1::Asn1Read)]
struct NoTag {
    value: asn1::Explicit<bool>, //~ `Explicit` lacks its lifetime, its type or its number, or has another
}

#[derive(asn1::Asn1Read)]
struct LargeTag {
    #[explicit(4294967296)]
    value: Option<bool>, //~ a tag isn't a number from 0 to 4294967295
}

#[derive(asn1::Asn1Read)]
struct LargeDefault {
    #[default(300)]
    value: u8, //~ `300` is no value of `u8`: a default is a Boolean, a number, octets of a `[u8; N]`, a value of an enum with numbers, or a constant -> A default of another type
}

#[derive(asn1::Asn1Read)]
struct SmallDefault {
    #[default(-129)]
    value: i8, //~ `-129` is no value of `i8`: a default is a Boolean, a number, octets of a `[u8; N]`, a value of an enum with numbers, or a constant -> A default of another type
}

#[derive(asn1::Asn1Read)]
struct NumberForBoolean {
    #[default(1)]
    value: bool, //~ `1` is no value of `bool`: a default is a Boolean, a number, octets of a `[u8; N]`, a value of an enum with numbers, or a constant -> A default of another type
}

#[derive(asn1::Asn1Read)]
struct DefaultOfALargeInteger<'a> {
    #[default(1)]
    value: asn1::BigUint<'a>, //~ `1` is no value of `BigUint<'a>`: a default is a Boolean, a number, octets of a `[u8; N]`, a value of an enum with numbers, or a constant -> A default of another type
}

#[derive(asn1::Asn1Read)]
#[cfg(test)] //~ the attribute `cfg` isn't known
struct Conditional {
    value: bool,
}

#[derive(asn1::Asn1Read)]
struct ThirtyOne { //~ `ThirtyOne` has more than 30 fields -> What has no form
    a: u8, b: u8, c: u8, d: u8, e: u8, f: u8, g: u8, h: u8, i: u8, j: u8, k: u8, l: u8, m: u8, n: u8, o: u8, p: u8,
    q: u8, r: u8, s: u8, t: u8, u: u8, v: u8, w: u8, x: u8, y: u8, z: u8, aa: u8, ab: u8, ac: u8, ad: u8, ae: u8,
}

#[derive(asn1::Asn1Read)]
enum NoVariant {} //~ `NoVariant` has no variant, or more than 36 -> A choice

#[derive(asn1::Asn1Read)]
struct LifeOfNothing<'a> { //~ `LifeOfNothing` declares a lifetime, and nothing in it has one
    value: bool,
}

#[derive(asn1::Asn1Read)]
enum OptionalVariant {
    Flag(Option<bool>), //~ `Flag` may be missing, and is an alternative of a choice -> A choice
    Number(u8),
}

#[derive(asn1::Asn1Write)]
enum ListOfCode<'a> {
    List(asn1::SetOfWriter<'a, u8>), //~ `List` is a list made in code, and may be only in a struct that isn't read -> An error of one's own
    Number(u8),
}

#[derive(asn1::Asn1Read)]
struct Extension {
    #[default(false)]
    critical: bool,
    number: u8,
}
#[derive(asn1::Asn1Read)]
struct ExtensionCritical { //~ `ExtensionCritical` is printed for `ExtensionCritical`, and for `Extension` too: name one otherwise
    value: bool,
}

const SOME_OID: asn1::ObjectIdentifier = asn1::oid!(1, 2, 3);
#[derive(asn1::Asn1DefinedByRead, asn1::Asn1DefinedByWrite)]
enum AnyValue<'a> {
    #[defined_by(SOME_OID)]
    Octets(&'a [u8]),
    #[default]
    Other(asn1::ObjectIdentifier, asn1::Tlv<'a>),
}
#[derive(asn1::Asn1Read)]
struct AmbiguousExtension<'a> {
    kind: asn1::DefinedByMarker<asn1::ObjectIdentifier>,
    #[default(false)]
    critical: bool,
    #[defined_by(kind)]
    value: AnyValue<'a>, //~ a tag of `value` is one of `critical` too, from which it is told by its tag
}

const SOME_OID: asn1::ObjectIdentifier = asn1::oid!(1, 2, 3);
#[derive(asn1::Asn1DefinedByRead, asn1::Asn1DefinedByWrite)]
enum Flagged {
    #[defined_by(SOME_OID)]
    Flag(Option<bool>),
}
#[derive(asn1::Asn1Read)]
struct FlagBehindFlag {
    kind: asn1::DefinedByMarker<asn1::ObjectIdentifier>,
    #[defined_by(kind)]
    value: Flagged,
    flag: bool, //~ a tag of `flag` is one of `value` too, from which it is told by its tag
}

const DATA: asn1::ObjectIdentifier = asn1::oid!(1, 2, 840, 113549, 1, 7, 1); //~ `DATA` is a function `data` here, a word of clauses

#[derive(asn1::Asn1Read)]
enum OfTypes {
    Type(u8), //~ `Type` is a word of Rust or Rattle: name it otherwise
}

use ; //~ a path was expected, and found `;`
#[derive(asn1::Asn1Read)]
struct AfterNoPath {
    value: bool,
}

#[derive(asn1::Asn1Read)]
struct DefaultAbove {
    #[default(256)]
    value: u8, //~ `256` is no value of `u8`: a default is a Boolean, a number, octets of a `[u8; N]`, a value of an enum with numbers, or a constant -> A default of another type
}

#[derive(asn1::Asn1Read)]
struct OverlapOfLargeIntegers<'a> {
    first: Option<u8>,
    second: asn1::BigUint<'a>, //~ a tag of `second` is one of `first` too, from which it is told by its tag
}

#[derive(asn1::Asn1Read)]
struct OverlapOfOctets<'a> {
    first: Option<&'a [u8]>,
    second: asn1::OctetStringEncoded<bool>, //~ a tag of `second` is one of `first` too, from which it is told by its tag
}

#[derive(asn1::Asn1Read)]
struct OverlapOfTimes {
    first: Option<asn1::GeneralizedTime>,
    second: asn1::X509GeneralizedTime, //~ a tag of `second` is one of `first` too, from which it is told by its tag
}

#[derive(asn1::Asn1Read)]
struct OverlapOfClasses {
    #[application(1, implicit)]
    first: Option<u8>,
    #[application(1, implicit)]
    second: bool, //~ a tag of `second` is one of `first` too, from which it is told by its tag
}

#[derive(asn1::Asn1Read)]
struct OverlapOfUniversal<'a> {
    first: Option<u8>,
    #[universal(2, implicit)]
    second: &'a [u8], //~ a tag of `second` is one of `first` too, from which it is told by its tag
}

use crate::content::Content;
#[derive(asn1::Asn1Read)]
struct CrossedMarkers {
    kind: asn1::DefinedByMarker<asn1::ObjectIdentifier>, //~ `kind` marks an item: `#[defined_by(kind)]` has to follow, with no other marker between -> A value that an item defines
    other: asn1::DefinedByMarker<asn1::ObjectIdentifier>,
    #[defined_by(kind)]
    content: Content,
    #[defined_by(other)]
    more: Content,
}

#[derive(asn1::Asn1Read)]
struct MarkerOfABoolean {
    kind: asn1::DefinedByMarker<bool>, //~ `kind` marks an item that has a tag, is in another type, or isn't an identifier or an integer -> What has no form
    #[defined_by(kind)]
    content: Content,
}
use crate::content::Content;

const TOP: asn1::ObjectIdentifier = asn1::oid!(3, 1); //~ `TOP` is no identifier: its second number is below 40 after 0 and 1 -> A value that an item defines

const LARGE: asn1::ObjectIdentifier = asn1::oid!(2, 5, 340282366920938463463374607431768211456); //~ `LARGE` has more than 63 octets, or a number from 2^128 on -> What has no form

const LONG: asn1::ObjectIdentifier = asn1::oid!(2, 5, 340282366920938463463374607431768211455, 340282366920938463463374607431768211455, 340282366920938463463374607431768211455, 268435455, 127, 127); //~ `LONG` has more than 63 octets, or a number from 2^128 on -> What has no form

#[derive(asn1::Asn1Read, asn1::Asn1Write)]
struct Half {
    value: Read, //~ `value` has the type `Read`, which doesn't derive `Asn1Write`
}
#[derive(asn1::Asn1Read)]
struct Read {
    value: u8,
}

#[derive(asn1::Asn1Read)]
struct NegativeLength {
    value: [u8; -4], //~ the length of an array isn't a number up to 4294967295
}

#[derive(asn1::Asn1Read)]
struct LengthOfAConstant {
    value: [u8; N], //~ the length of an array isn't a number up to 4294967295
}

#[derive(asn1::Asn1Read)]
struct NoLength {
    value: [u8; ], //~ the length of an array isn't a number up to 4294967295
}

#[derive(asn1::Asn1Read)]
struct SumAsABound<'a> {
    value: asn1::SequenceOf<'a, u8, 1, { 1 + 1 }>, //~ `1+1` isn't a number below 2^64, or `usize::MAX`
}

#[derive(asn1::Asn1Read)]
struct BoundsThatCross<'a> {
    value: asn1::SequenceOf<'a, u8, 5, 4>, //~ a list whose least number of items is above its greatest
}

#[derive(asn1::Asn1Read)]
struct ListOfOptions<'a> {
    value: asn1::SetOf<'a, Option<u8>>, //~ an option or a default is in a field alone, and in no list or under no tag -> What has no form
}

#[derive(asn1::Asn1Read)]
struct OptionUnderATag {
    value: asn1::Explicit<Option<u8>, 1>, //~ an option or a default is in a field alone, and in no list or under no tag -> What has no form
}

#[derive(asn1::Asn1Read)]
struct OneName { //~ `OneNameABField` is printed twice for `OneName`: name one of its fields otherwise
    #[implicit(0)]
    a_b: Option<u8>,
    #[implicit(1)]
    a__b: Option<u8>,
}

#[derive(asn1::Asn1Read)]
struct Letters {
    größe: u8, //~ `:` was expected, and found `ö`
}

#[derive(asn1::Asn1Read)]
enum OfClauses {
    elim(u8), //~ `elim` is a word of clauses, and a variant's name there: name it otherwise -> A choice
}

#[derive(asn1::Asn1Read)]
struct u8 { //~ `u8` is imported, or a type of the library
    value: bool,
}

use asn1::Tlv as Any; //~ a name of the original's is imported as another: name it as it is

#[derive(asn1::Asn1Read)]
struct Boxes {
    value: Box<Box<Box<Box<Box<Box<Box<Box<Box<Box<Box<Box<Box<Box<Box<Box<Box<Box<Box<Box<Box<Box<Box<Box<Box<Box<
    Box<Box<Box<Box<u8>>>>>>>>>>>>>>>>>>>>>>>>>>>>>>, //~ types within one another more deeply than 30
}

#[derive(asn1::Asn1Read)]
#[application(1, explicit)]
struct AroundItself { //~ `AroundItself` has a tag of its own, and an explicit tag around it is an alias's, as `type AroundItself2 = asn1::ApplicationExplicit<AroundItself, 1>` -> Tags of other classes
    value: u8,
}

#[derive(asn1::Asn1Read)]
#[private(1, implicit)]
enum TaggedChoice { //~ `TaggedChoice` is a choice, which has no tag of its own: an alias has one, as `type TaggedChoice2 = asn1::PrivateExplicit<TaggedChoice, 1>` -> Tags of other classes
    One(u8),
    Other(bool),
}

#[derive(asn1::Asn1Read)]
#[application(1)]
struct NoForm { //~ `NoForm` has a tag that isn't as `#[application(1, implicit)]` or `#[application(1, explicit)]` -> Tags of other classes
    value: u8,
}

#[derive(asn1::Asn1Read)]
#[universal(27, explicit)]
struct ExplicitUniversal { //~ `ExplicitUniversal` has a tag of the class universal that is explicit -> Tags of other classes
    value: u8,
}

#[derive(asn1::Asn1Read)]
#[application(1, implicit)]
#[private(1, implicit)]
struct TwoClasses { //~ `TwoClasses` has tags of two classes -> Tags of other classes
    value: u8,
}

#[derive(asn1::Asn1Read)]
struct TwoTagsOfAField {
    #[implicit(1)]
    #[application(1, implicit)]
    value: Option<u8>, //~ `value` has two tags: an alias states one of them -> Tags of other classes
}

#[application(1, implicit)]
const TAGGED: asn1::ObjectIdentifier = asn1::oid!(1, 2, 3); //~ `TAGGED` is a constant, which has no tag here -> Tags of other classes

#[derive(asn1::Asn1Read)]
#[set]
enum SetOfVariants { //~ `SetOfVariants` is a set, and no struct -> A set
    One(u8),
}

#[derive(asn1::Asn1Read)]
struct SetOfAField {
    #[set]
    value: u8, //~ an attribute that `value` can't have
}

#[derive(asn1::Asn1Read)]
#[set]
struct Unordered {
    number: u8,
    flag: bool, //~ `flag` is in a set, and its tag doesn't come after that of the field before it -> A set
}

#[derive(asn1::Asn1Read)]
#[set]
struct UnorderedClasses {
    #[implicit(0)]
    number: Option<u8>,
    #[application(1, implicit)]
    flag: bool, //~ `flag` is in a set, and its tag doesn't come after that of the field before it -> A set
}

#[derive(asn1::Asn1Read)]
#[set]
struct AnyInASet<'a> {
    any: asn1::Tlv<'a>, //~ `any` is in a set, and hasn't one tag that is known -> A set
}

#[derive(asn1::Asn1Read)]
enum HalfNumbered {
    One = 1,
    Other(u8), //~ `Other` has no number, and `One` has one -> Values with numbers
}

#[derive(asn1::Asn1Read)]
enum SameNumber {
    One = 1,
    Other = 0x1, //~ `Other` has the number of `One` -> Values with numbers
}

#[derive(asn1::Asn1Read)]
enum NegativeNumber {
    Below = -1, //~ `Below` has the number `-1`, which is no `u32` -> Values with numbers
}

#[derive(asn1::Asn1Read)]
enum LargeNumber {
    Above = 4294967296, //~ `Above` has the number `4294967296`, which is no `u32` -> Values with numbers
}

#[derive(asn1::Asn1DefinedByRead)]
enum NumbersByItem { //~ `NumbersByItem` has numbers, and is defined by an item -> Values with numbers
    One = 1,
}

#[derive(asn1::Asn1Read)]
enum NumbersWithALife<'a> { //~ `NumbersWithALife` declares a lifetime, and nothing in it has one
    One = 1,
}

#[derive(asn1::Asn1Read)]
enum ValueTwice {
    One = 1,
    One = 2, //~ `One` is declared twice
}

#[derive(asn1::Asn1Read)]
enum ValueWithATag {
    #[implicit(1)]
    One = 1, //~ an attribute that `One` can't have
}

use crate::content::Content;
#[derive(asn1::Asn1Read)]
struct MarkersOfEachOther {
    kind: asn1::DefinedByMarker<asn1::ObjectIdentifier>,
    #[defined_by(other)]
    content: Content, //~ `content` isn't after the marker of its item -> A value that an item defines
    other: asn1::DefinedByMarker<asn1::ObjectIdentifier>,
    #[defined_by(kind)]
    more: Content,
}

#[derive(asn1::Asn1Read)]
struct TagsOfOtherForms<'a> {
    #[implicit(0)]
    list: Option<asn1::SequenceOf<'a, u8>>,
    #[implicit(0)]
    number: Option<u8>, //~ a tag of `number` is one of `list` too, from which it is told by its tag
}

#[derive(asn1::Asn1Read)]
struct OverlapOfNumbers {
    first: Option<Numbers>,
    second: asn1::Enumerated, //~ a tag of `second` is one of `first` too, from which it is told by its tag
}
#[derive(asn1::Asn1Read)]
enum Numbers {
    One = 1,
}

#[derive(asn1::Asn1Read)]
#[set]
struct SameTagTwice {
    number: u8,
    other: u16, //~ `other` is in a set, and its tag doesn't come after that of the field before it -> A set
}

/* A comment * of several
lines */ /**/ /*** and one more ***/
//// This is no comment of an item.
#[derive(asn1::Asn1Read)]
struct Commented {
    /** The value. */ //~ a comment by `/**`, around another, or without end
    value: u8,
}

#[derive(asn1::Asn1Read)]
struct Nested {
    value: u8, /* one comment /* in another */ */ //~ a comment by `/**`, around another, or without end
}

type A0 = A1; type A1 = A2; type A2 = A3; type A3 = A4; type A4 = A5; type A5 = A6; type A6 = A7; type A7 = A8; type
A8 = A9; type A9 = A10; type A10 = A11; type A11 = A12; type A12 = A13; type A13 = A14; type A14 = A15; type A15 =
A16; type A16 = A17; type A17 = A18; type A18 = A19; type A19 = A20; type A20 = A21; type A21 = A22; type A22 = A23;
type A23 = A24; type A24 = A25; type A25 = A26; type A26 = A27; type A27 = A28; type A28 = A29; type A29 = A30; type
A30 = A31; //~ types within one another more deeply than 30
type A31 = u8;

#[derive(asn1::Asn1Read)]
struct MarkerOfANumber {
    kind: asn1::DefinedByMarker<u8>, //~ `kind` marks an item of another type than `ObjectIdentifier`, by which `content` is defined -> A value that an item defines
    #[defined_by(kind)]
    content: Content,
}
const SOME_OID: asn1::ObjectIdentifier = asn1::oid!(1, 2, 3);
#[derive(asn1::Asn1DefinedByRead)]
enum Content {
    #[defined_by(SOME_OID)]
    Number(i32),
}

#[derive(asn1::Asn1DefinedByRead)]
enum ItemsOfTwoTypes {
    #[defined_by(ONE)]
    Number(i32),
    #[defined_by(TWO)]
    Flag(bool), //~ `TWO` is no constant of the type `u8` that is declared here -> A value that an item defines
}
const ONE: u8 = 1;
const TWO: u16 = 2;

#[derive(asn1::Asn1DefinedByRead)]
enum SameItem {
    #[defined_by(ONE)]
    Number(i32),
    #[defined_by(FIRST)]
    Flag(bool), //~ `Flag` has the item of `Number` -> A value that an item defines
}
const ONE: i8 = 1;
const FIRST: i8 = 0x1;

#[derive(asn1::Asn1DefinedByRead)]
enum LiteralItem {
    #[defined_by(1)]
    Number(i32), //~ `1` is no constant of an identifier or a number that is declared here -> A value that an item defines
}

const ABOVE: u8 = 256; //~ `ABOVE` is `256`, which is no `u8`

const SUM: u8 = 1 + 1; //~ `SUM` is `1+1`, which is no `u8`

const FLAG: bool = true; //~ `FLAG` is a constant that is neither a number nor made by `oid!`

#[application(1, implicit)]
const TAGGED_NUMBER: u8 = 1; //~ `TAGGED_NUMBER` is a constant, which has no tag here -> Tags of other classes

#[derive(asn1::Asn1Read)]
struct DefaultOfOtherLength {
    #[default([1, 2])]
    value: [u8; 3], //~ `[1,2]` is no value of `[u8; 3]`: a default is a Boolean, a number, octets of a `[u8; N]`, a value of an enum with numbers, or a constant -> A default of another type
}

#[derive(asn1::Asn1Read)]
struct DefaultOfNoOctet {
    #[default([256])]
    value: [u8; 1], //~ `[256]` is no value of `[u8; 1]`: a default is a Boolean, a number, octets of a `[u8; N]`, a value of an enum with numbers, or a constant -> A default of another type
}

#[derive(asn1::Asn1Read)]
struct DefaultOfNoValue {
    #[default(Numbers::Two)]
    value: Numbers, //~ `Numbers::Two` is no value of `Numbers`: a default is a Boolean, a number, octets of a `[u8; N]`, a value of an enum with numbers, or a constant -> A default of another type
}
#[derive(asn1::Asn1Read)]
enum Numbers {
    One = 1,
}

#[derive(asn1::Asn1Read)]
struct ClassInWords {
    #[explicit(1, class = APPLICATION)]
    value: Option<u8>, //~ `explicit` takes a number and `required = true`
}

#[derive(asn1::Asn1Read)]
struct MarkerUnderATag {
    #[explicit(1, required = true)]
    kind: asn1::DefinedByMarker<i32>, //~ `kind` marks an item that has a tag, is in another type, or isn't an identifier or an integer -> What has no form
    #[defined_by(kind)]
    content: Content,
}
use crate::content::Content;

#[derive(asn1::Asn1Read)]
enum MarkerInAChoice {
    Kind(Box<asn1::DefinedByMarker<i32>>), //~ `Kind` marks an item that has a tag, is in another type, or isn't an identifier or an integer -> What has no form
}

#[derive(asn1::Asn1Read)]
struct ListOfValues<'a> {
    values: asn1::SequenceOf<'a, Content>, //~ `values` is defined by an item: it follows that, with `#[defined_by(..)]` -> A value that an item defines
}
#[derive(asn1::Asn1DefinedByRead)]
enum Content {
    #[defined_by(ONE)]
    Number(i32),
}
const ONE: u8 = 1;

#[derive(asn1::Asn1Read)]
struct NoNumberInIt {
    value: [u8; 0x_], //~ the length of an array isn't a number up to 4294967295
}

#[derive(asn1::Asn1Read)]
enum NameForANumber {
    One = FIRST, //~ `One` has the number `FIRST`, which is no `u32` -> Values with numbers
}

#[derive(asn1::Asn1Read)]
struct Unended {
    value: u8, /* //~ a comment by `/**`, around another, or without end
}

#[derive(asn1::Asn1Read)]
struct OtherString<'a> {
    value: asn1::T61String<'a>, //~ `T61String` is no type of the library, and neither declared nor imported here -> Tags of other classes
}

#[derive(asn1::Asn1Read)]
struct MarkerByAnAlias {
    kind: Kind, //~ `kind` marks an item that has a tag, is in another type, or isn't an identifier or an integer -> What has no form
}
type Kind = asn1::DefinedByMarker<i32>;

#[derive(asn1::Asn1Read)]
struct Named {
    #[name("Number")]
    number: u8, //~ `number` has a name that isn't one of ASN.1, as `#[name("cA")]` is
}

#[derive(asn1::Asn1Read)]
enum NamedVariant {
    #[name("number")]
    Number(u8), //~ an attribute that `Number` can't have
}
