//! SNMPv3 messages (RFC 3412, RFC 3414, RFC 3416).

/// A message (RFC 3412, 6).
#[derive(asn1::Asn1Read, asn1::Asn1Write)]
pub struct SnmpV3Message<'a> {
    /// msgVersion, 3.
    pub msg_version: u32,
    /// msgGlobalData.
    pub msg_global_data: HeaderData<'a>,
    /// msgSecurityParameters.
    pub msg_security_parameters: asn1::OctetStringEncoded<UsmSecurityParameters<'a>>,
    /// msgData.
    pub msg_data: ScopedPduData<'a>,
}

/// HeaderData.
#[derive(asn1::Asn1Read, asn1::Asn1Write)]
pub struct HeaderData<'a> {
    /// msgID.
    pub msg_id: u32,
    /// msgMaxSize.
    pub msg_max_size: u32,
    /// msgFlags, one octet.
    pub msg_flags: &'a [u8],
    /// msgSecurityModel.
    pub msg_security_model: u32,
}

/// UsmSecurityParameters (RFC 3414, 2.4).
#[derive(asn1::Asn1Read, asn1::Asn1Write)]
pub struct UsmSecurityParameters<'a> {
    /// msgAuthoritativeEngineID.
    pub msg_authoritative_engine_id: &'a [u8],
    /// msgAuthoritativeEngineBoots.
    pub msg_authoritative_engine_boots: u32,
    /// msgAuthoritativeEngineTime.
    pub msg_authoritative_engine_time: u32,
    /// msgUserName.
    pub msg_user_name: &'a [u8],
    /// msgAuthenticationParameters.
    pub msg_authentication_parameters: &'a [u8],
    /// msgPrivacyParameters.
    pub msg_privacy_parameters: &'a [u8],
}

/// ScopedPduData.
#[derive(asn1::Asn1Read, asn1::Asn1Write)]
pub enum ScopedPduData<'a> {
    /// plaintext.
    Plaintext(ScopedPdu<'a>),
    /// encryptedPDU.
    EncryptedPdu(&'a [u8]),
}

/// ScopedPDU.
#[derive(asn1::Asn1Read, asn1::Asn1Write)]
pub struct ScopedPdu<'a> {
    /// contextEngineID.
    pub context_engine_id: &'a [u8],
    /// contextName.
    pub context_name: &'a [u8],
    /// data.
    #[name("data")]
    pub pdus: Pdus<'a>,
}

/// PDUs (RFC 3416, 3).
#[derive(asn1::Asn1Read, asn1::Asn1Write)]
pub enum Pdus<'a> {
    /// get-request.
    #[implicit(0)]
    GetRequest(Pdu<'a>),
    /// get-next-request.
    #[implicit(1)]
    GetNextRequest(Pdu<'a>),
    /// response.
    #[implicit(2)]
    Response(Pdu<'a>),
    /// set-request.
    #[implicit(3)]
    SetRequest(Pdu<'a>),
    /// get-bulk-request.
    #[implicit(5)]
    GetBulkRequest(BulkPdu<'a>),
    /// inform-request.
    #[implicit(6)]
    InformRequest(Pdu<'a>),
    /// snmpV2-trap.
    #[implicit(7)]
    Trap(Pdu<'a>),
    /// report.
    #[implicit(8)]
    Report(Pdu<'a>),
}

/// PDU.
#[derive(asn1::Asn1Read, asn1::Asn1Write)]
pub struct Pdu<'a> {
    /// request-id.
    pub request_id: i32,
    /// error-status.
    pub error_status: u32,
    /// error-index.
    pub error_index: u32,
    /// variable-bindings.
    pub variable_bindings: asn1::SequenceOf<'a, VarBind<'a>>,
}

/// BulkPDU.
#[derive(asn1::Asn1Read, asn1::Asn1Write)]
pub struct BulkPdu<'a> {
    /// request-id.
    pub request_id: i32,
    /// non-repeaters.
    pub non_repeaters: u32,
    /// max-repetitions.
    pub max_repetitions: u32,
    /// variable-bindings.
    pub variable_bindings: asn1::SequenceOf<'a, VarBind<'a>>,
}

/// VarBind.
#[derive(asn1::Asn1Read, asn1::Asn1Write)]
pub struct VarBind<'a> {
    /// name.
    pub name: asn1::ObjectIdentifier,
    /// The value.
    pub value: ObjectSyntax<'a>,
}

/// A value, or that there is none: SimpleSyntax, ApplicationSyntax, NULL and three tags.
#[derive(asn1::Asn1Read, asn1::Asn1Write)]
pub enum ObjectSyntax<'a> {
    /// integer-value.
    Integer(i32),
    /// string-value.
    String(&'a [u8]),
    /// objectID-value.
    ObjectId(asn1::ObjectIdentifier),
    /// ipAddress-value.
    #[application(0, implicit)]
    IpAddress(&'a [u8]),
    /// counter-value.
    #[application(1, implicit)]
    Counter(u32),
    /// unsigned-integer-value.
    #[application(2, implicit)]
    Unsigned(u32),
    /// timeticks-value.
    #[application(3, implicit)]
    TimeTicks(u32),
    /// arbitrary-value.
    #[application(4, implicit)]
    Arbitrary(&'a [u8]),
    /// big-counter-value.
    #[application(6, implicit)]
    BigCounter(u64),
    /// unSpecified.
    UnSpecified(asn1::Null),
    /// noSuchObject.
    #[implicit(0)]
    NoSuchObject(asn1::Null),
    /// noSuchInstance.
    #[implicit(1)]
    NoSuchInstance(asn1::Null),
    /// endOfMibView.
    #[implicit(2)]
    EndOfMibView(asn1::Null),
}
