//! Kerberos messages (RFC 4120, 5): a ticket, and the requests and replies of AS and TGS.

/// KerberosString: a GeneralString with the characters of an IA5String (5.2.1).
#[universal(27, implicit)]
pub type KerberosString<'a> = asn1::IA5String<'a>;

/// PrincipalName (5.2.2).
#[derive(asn1::Asn1Read, asn1::Asn1Write)]
pub struct PrincipalName<'a> {
    /// name-type.
    #[explicit(0, required = true)]
    pub name_type: i32,
    /// name-string.
    #[explicit(1, required = true)]
    pub name_string: asn1::SequenceOf<'a, KerberosString<'a>>,
}

/// HostAddress (5.2.5).
#[derive(asn1::Asn1Read, asn1::Asn1Write)]
pub struct HostAddress<'a> {
    /// addr-type.
    #[explicit(0, required = true)]
    pub addr_type: i32,
    /// address.
    #[explicit(1, required = true)]
    pub address: &'a [u8],
}

/// PA-DATA (5.2.7).
#[derive(asn1::Asn1Read, asn1::Asn1Write)]
pub struct PaData<'a> {
    /// padata-type.
    #[explicit(1, required = true)]
    pub padata_type: i32,
    /// padata-value.
    #[explicit(2, required = true)]
    pub padata_value: &'a [u8],
}

/// EncryptedData (5.2.9).
#[derive(asn1::Asn1Read, asn1::Asn1Write)]
pub struct EncryptedData<'a> {
    /// etype.
    #[explicit(0, required = true)]
    pub etype: i32,
    /// kvno.
    #[explicit(1)]
    pub kvno: Option<u32>,
    /// cipher.
    #[explicit(2, required = true)]
    pub cipher: &'a [u8],
}

/// What a ticket holds (5.3).
#[derive(asn1::Asn1Read, asn1::Asn1Write)]
pub struct TicketBody<'a> {
    /// tkt-vno, 5.
    #[explicit(0, required = true)]
    pub tkt_vno: u8,
    /// realm.
    #[explicit(1, required = true)]
    pub realm: KerberosString<'a>,
    /// sname.
    #[explicit(2, required = true)]
    pub sname: PrincipalName<'a>,
    /// enc-part.
    #[explicit(3, required = true)]
    pub enc_part: EncryptedData<'a>,
}

/// Ticket (5.3).
#[application(1, explicit)]
pub type Ticket<'a> = TicketBody<'a>;

/// KDC-REQ-BODY (5.4.1).
#[derive(asn1::Asn1Read, asn1::Asn1Write)]
pub struct KdcReqBody<'a> {
    /// kdc-options.
    #[explicit(0, required = true)]
    pub kdc_options: asn1::BitString<'a>,
    /// cname.
    #[explicit(1)]
    pub cname: Option<PrincipalName<'a>>,
    /// realm.
    #[explicit(2, required = true)]
    pub realm: KerberosString<'a>,
    /// sname.
    #[explicit(3)]
    pub sname: Option<PrincipalName<'a>>,
    /// from.
    #[explicit(4)]
    pub from: Option<asn1::X509GeneralizedTime>,
    /// till.
    #[explicit(5, required = true)]
    pub till: asn1::X509GeneralizedTime,
    /// rtime.
    #[explicit(6)]
    pub rtime: Option<asn1::X509GeneralizedTime>,
    /// nonce.
    #[explicit(7, required = true)]
    pub nonce: u32,
    /// etype.
    #[explicit(8, required = true)]
    pub etype: asn1::SequenceOf<'a, i32>,
    /// addresses.
    #[explicit(9)]
    pub addresses: Option<asn1::SequenceOf<'a, HostAddress<'a>>>,
    /// enc-authorization-data.
    #[explicit(10)]
    pub enc_authorization_data: Option<EncryptedData<'a>>,
    /// additional-tickets.
    #[explicit(11)]
    pub additional_tickets: Option<asn1::SequenceOf<'a, Ticket<'a>>>,
}

/// KDC-REQ (5.4.1).
#[derive(asn1::Asn1Read, asn1::Asn1Write)]
pub struct KdcReq<'a> {
    /// pvno, 5.
    #[explicit(1, required = true)]
    pub pvno: u8,
    /// msg-type, 10 or 12.
    #[explicit(2, required = true)]
    pub msg_type: u8,
    /// padata.
    #[explicit(3)]
    pub padata: Option<asn1::SequenceOf<'a, PaData<'a>>>,
    /// req-body.
    #[explicit(4, required = true)]
    pub req_body: KdcReqBody<'a>,
}

/// AS-REQ (5.4.1).
#[application(10, explicit)]
pub type AsReq<'a> = KdcReq<'a>;

/// TGS-REQ (5.4.1).
#[application(12, explicit)]
pub type TgsReq<'a> = KdcReq<'a>;

/// KDC-REP (5.4.2).
#[derive(asn1::Asn1Read, asn1::Asn1Write)]
pub struct KdcRep<'a> {
    /// pvno, 5.
    #[explicit(0, required = true)]
    pub pvno: u8,
    /// msg-type, 11 or 13.
    #[explicit(1, required = true)]
    pub msg_type: u8,
    /// padata.
    #[explicit(2)]
    pub padata: Option<asn1::SequenceOf<'a, PaData<'a>>>,
    /// crealm.
    #[explicit(3, required = true)]
    pub crealm: KerberosString<'a>,
    /// cname.
    #[explicit(4, required = true)]
    pub cname: PrincipalName<'a>,
    /// ticket.
    #[explicit(5, required = true)]
    pub ticket: Ticket<'a>,
    /// enc-part.
    #[explicit(6, required = true)]
    pub enc_part: EncryptedData<'a>,
}

/// AS-REP (5.4.2).
#[application(11, explicit)]
pub type AsRep<'a> = KdcRep<'a>;

/// TGS-REP (5.4.2).
#[application(13, explicit)]
pub type TgsRep<'a> = KdcRep<'a>;
