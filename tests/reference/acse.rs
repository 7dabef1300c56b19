//! The messages that open and end an association (document 01, "The association"; field order of the Green Book).
//! An AARQ is read field by field; whatever departs from document 01 makes the reader answer `None`.

use crate::aes::Block;
use crate::bytes::{part, Reader};
use crate::envelope::{Challenge, Sender, Title};

pub type Services = [u8; 3];

pub const RELEASE_REQUEST: [u8; 5] = [0x62, 0x03, 0x80, 0x01, 0x00];
pub const RELEASE_RESPONSE: [u8; 5] = [0x63, 0x03, 0x80, 0x01, 0x00];

const LEAST_SIZE: u16 = 768;
const PLAIN_CONTEXT: u8 = 1;
const CIPHERED_CONTEXT: u8 = 3;
const NO_MECHANISM: u8 = 0;
const GMAC_MECHANISM: u8 = 5;
const REQUIREMENTS: [u8; 2] = [0x07, 0x80];
const INITIATE_ERROR: [u8; 4] = [0x0E, 0x01, 0x0A, 0x00];

/// An object identifier of the association: arc 1 for contexts, 2 for mechanisms.
fn identifier(arc: u8, last: u8) -> [u8; 7] {
    [0x60, 0x85, 0x74, 0x05, 0x08, arc, last]
}

/// What H proposes in an AARQ that is accepted.
pub struct Proposal {
    pub services: Services,
    pub key: Block,
    pub challenge: Challenge,
    pub counter: u32,
}

/// The services that V proposes, where this is an AARQ of V as document 01 has it.
pub fn read_plain(apdu: &[u8], title: &Title) -> Option<Services> {
    let mut fields = fields(apdu)?;
    context_and_title(&mut fields, PLAIN_CONTEXT, title)?;
    same(fields.part(0x8B)?, &identifier(2, NO_MECHANISM))?;
    let initiate = user_information(fields)?;
    let mut initiate = Reader::new(initiate);
    initiate.fixed(&[0x01, 0x00])?;
    proposed_services(initiate)
}

/// What H proposes, where this is an AARQ of H as document 01 has it and its envelope opens.
pub fn read_ciphered(apdu: &[u8], sender: &Sender) -> Option<Proposal> {
    let mut fields = fields(apdu)?;
    context_and_title(&mut fields, CIPHERED_CONTEXT, &sender.title)?;
    same(fields.part(0x8A)?, &REQUIREMENTS)?;
    same(fields.part(0x8B)?, &identifier(2, GMAC_MECHANISM))?;
    let mut value = Reader::new(fields.part(0xAC)?);
    let challenge = value.part(0x80)?.try_into().ok()?;
    value.end()?;
    let (counter, initiate) = sender.open(0x21, user_information(fields)?)?;
    let mut initiate = Reader::new(&initiate);
    initiate.fixed(&[0x01, 0x01, 0x10])?;
    let key = initiate.array()?;
    let services = proposed_services(initiate)?;
    Some(Proposal { services, key, challenge, counter })
}

/// The fields of an AARQ that ends where its length says.
fn fields(apdu: &[u8]) -> Option<Reader<'_>> {
    let mut outer = Reader::new(apdu);
    let fields = outer.part(0x60)?;
    outer.end()?;
    Some(Reader::new(fields))
}

fn same(found: &[u8], expected: &[u8]) -> Option<()> {
    (found == expected).then_some(())
}

fn context_and_title(fields: &mut Reader, context: u8, title: &Title) -> Option<()> {
    same(fields.part(0xA1)?, &part(0x06, &identifier(1, context)))?;
    same(fields.part(0xA6)?, &part(0x04, title))
}

/// The last field: an octet string, and nothing behind it.
fn user_information(mut fields: Reader<'_>) -> Option<&[u8]> {
    let mut field = Reader::new(fields.part(0xBE)?);
    fields.end()?;
    let content = field.part(0x04)?;
    field.end()?;
    Some(content)
}

/// The end of an initiate request, from the response flag on.
fn proposed_services(mut initiate: Reader) -> Option<Services> {
    initiate.fixed(&[0x00, 0x00, 0x06, 0x5F, 0x1F, 0x04, 0x00])?;
    let services = initiate.array()?;
    let size = initiate.number16()?;
    initiate.end()?;
    (size >= LEAST_SIZE).then_some(services)
}

/// The initiate response.
pub fn initiate_response(agreed: Services) -> Vec<u8> {
    [&[0x08, 0x00, 0x06, 0x5F, 0x1F, 0x04, 0x00], &agreed[..], &[0x03, 0x00, 0x00, 0x07]].concat()
}

/// Context name, result and diagnostic.
fn verdict(context: u8, result: u8, diagnostic: u8) -> Vec<u8> {
    [
        part(0xA1, &part(0x06, &identifier(1, context))),
        part(0xA2, &part(0x02, &[result])),
        part(0xA3, &part(0xA1, &part(0x02, &[diagnostic]))),
    ]
    .concat()
}

fn information(content: &[u8]) -> Vec<u8> {
    part(0xBE, &part(0x04, content))
}

/// The AARE that accepts V.
pub fn accept_plain(title: &Title, agreed: Services) -> Vec<u8> {
    let fields = [
        verdict(PLAIN_CONTEXT, 0, 0),
        part(0xA4, &part(0x04, title)),
        part(0x89, &identifier(2, NO_MECHANISM)),
        information(&initiate_response(agreed)),
    ];
    part(0x61, &fields.concat())
}

/// The AARE that accepts H, with the initiate response in its envelope.
pub fn accept_ciphered(title: &Title, challenge: &Challenge, envelope: &[u8]) -> Vec<u8> {
    let fields = [
        verdict(CIPHERED_CONTEXT, 0, 14),
        part(0xA4, &part(0x04, title)),
        part(0x88, &REQUIREMENTS),
        part(0x89, &identifier(2, GMAC_MECHANISM)),
        part(0xAA, &part(0x80, challenge)),
        information(envelope),
    ];
    part(0x61, &fields.concat())
}

/// The AARE that rejects: the same for every reason.
pub fn refuse(ciphered: bool) -> Vec<u8> {
    let context = if ciphered { CIPHERED_CONTEXT } else { PLAIN_CONTEXT };
    part(0x61, &[verdict(context, 1, 13), information(&INITIATE_ERROR)].concat())
}
