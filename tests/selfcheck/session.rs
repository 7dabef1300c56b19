//! A whole session of V and of H with frames that were computed by another library, and a profile answer.

use crate::{array, hex};
use reference::image;
use reference::meter::{Ciphered, Meter, Register, Row};
use reference::receive::Lent;

const DEDICATED: &str = "00112233445566778899AABBCCDDEEFF";

fn meter() -> Meter {
    let device = array("54504331303730323031303030303031");
    Meter::new(device, array("4D4D4D0000BC614E"), array("5645520000000000"), array("48414E0000000000"))
}

/// The frame answers so.
fn exchange(meter: &mut Meter, frame: &str, number: u8, reply: &str) {
    let (guk, authentication) = (hex("000102030405060708090A0B0C0D0E0F"), hex("D0D1D2D3D4D5D6D7D8D9DADBDCDDDEDF"));
    let challenge = hex("503677524A323146");
    let lent = Lent { guk: &guk, authentication: &authentication, challenge: &challenge, room: 779 };
    let outcome = meter.receive(&hex(frame), &lent);
    assert_eq!((outcome.number, outcome.reply), (number, hex(reply)));
    let filling = vec![0; image::SIZE];
    assert_eq!(image::read(&image::write(meter, &filling)).as_ref(), Ok(&*meter));
}

#[test]
fn session_of_v() {
    let mut meter = meter();
    exchange(&mut meter, "7EA0070321930F017E", 0, "7EA007210373 01407E");
    let opening = "7EA040032113 91C4E6E600 6032A109060760857405080101A60A04085645520000000000 8B0760857405080200\
                   BE10040E010000 00065F1F040000001403 00A9F77E";
    let damaged = opening.replace("A9F7", "A9F6");
    exchange(&mut meter, &damaged, 4, "");
    exchange(
        &mut meter,
        opening,
        0,
        "7EA04C210313A5F5E6E700613EA109060760857405080101A203020100A305A103020100A40A04084D4D4D0000BC614E\
         890760857405080200BE10040E0800065F1F040000001403000007713F7E",
    );
    exchange(
        &mut meter,
        "7EA019032113E4E8E6E600C001C1000100002A0000FF020012807E",
        0,
        "7EA02221031303C2E6E700C401C1000A1054504331303730323031303030303031AF697E",
    );
    let release = "7EA0110321133C0DE6E60062038001 00BD9B7E";
    exchange(&mut meter, release, 0, "7EA0112103133CABE6E70063038001002C0F7E");
    exchange(&mut meter, release, 12, "7EA00F210313DFC6E6E700D801013C437E");
}

/// The session of H up to its first GET.
fn associated() -> Meter {
    let mut meter = meter();
    exchange(&mut meter, "7EA007032793DF557E", 0, "7EA007270373D8967E");
    exchange(
        &mut meter,
        "7EA0740327135FAEE6E6006066A109060760857405080103A60A040848414E00000000008A0207808B0760857405080205\
         AC0A80084B35366956616759BE340432213030000000C88C04859644927B02E23064814B8421ED8E2D9CE4B6A70D387519FC2B75A4DB\
         2F8D092EF8D811B6523773E2CB1D7E",
        0,
        "7EA06F270313E289E6E7006161A109060760857405080103A203020100A305A10302010EA40A04084D4D4D0000BC614E88020780\
         890760857405080205AA0A8008503677524A323146BE230421281F3000000001D96106551DB77E517191D70B895A645D7453C44C\
         EACB31B503747C067E",
    );
    exchange(
        &mut meter,
        "7EA03F032713FD78E6E600CB3130000000CA4687EF5E347C0C0994D99913E4A68BB16D30887D76F3F00817D9\
         C884EF9E831397E7FF16FD1F0273E2194C5929177E",
        0,
        "7EA038270313D50BE6E700CF2A3000000003BCC29BB99B746A2ECC67525F54FB50955879DAB0ECFFA6CDE11B35\
         9020398A508CDAD93E1CC8977E",
    );
    assert_eq!(meter.han.association, Ciphered::Associated { agreed: [0, 0, 0x15], key: array(DEDICATED) });
    meter
}

#[test]
fn session_of_h() {
    let mut meter = associated();
    exchange(
        &mut meter,
        "7EA02C032713919EE6E600D01E30000000CBB6DE6918AAAFC216E4A79F388CFE4BED21C5F7DAA9DFF0FAC3E6197E",
        0,
        "7EA031270313B6F2E6E700D4233000000004F2C8910A33F06893FA93971FFAB3514E6AF330014AEB09D9763BCE98476CC39C7E",
    );
    assert_eq!((meter.han.accepted, meter.han.sent), (203, 4));
}

#[test]
fn profile_of_five_rows() {
    let mut meter = associated();
    let name = [1, 0, 1, 8, 0, 255];
    meter.registers = vec![Register { name, right: true, scaler: 0xFF, unit: 0x1E, value: 50 }];
    meter.columns = vec![name];
    let row = |i: u16| {
        let (hour, minute) = ((i / 4) as u8, (i % 4 * 15) as u8);
        let clock = [0x07, 0xE1, 1, 1, 0xFF, hour, minute, 0, 0xFF, 0x80, 0, 0];
        Row { number: 4996 + i, clock, cells: vec![u32::from(i + 1) * 10] }
    };
    meter.rows = (0..5).rev().map(row).collect();
    meter.han.sent = 4;
    let sender = reference::envelope::Sender {
        title: meter.han.title,
        key: array(DEDICATED),
        authentication: array("D0D1D2D3D4D5D6D7D8D9DADBDCDDDEDF"),
    };
    let apdu = sender.close(0xD0, 210, &hex("C001C100070000150006FF0200"));
    let head = reference::frame::Head { destination: 0x03, source: 0x27, control: 0x13 };
    let frame = reference::frame::write(head, &[&[0xE6, 0xE6, 0x00], &apdu[..]].concat());
    let frame: String = frame.iter().map(|byte| format!("{byte:02X}")).collect();
    exchange(
        &mut meter,
        &frame,
        0,
        "7EA09E27031372E2E6E700D4818F3000000005FF3751F746C597CEC91CD5A375CE3CF0491B8D789CF4E69614536174\
         9B967B70C77AD89A9C55F8A80C46096B1658352EB40459461A81C7D00454932AE3D34D7A70135ACD4538FCD1925E122E\
         96923FC6C781F06C75957B225586BF5E1D2491FFC640E41477C0D364D122A171DD0094EDEAB4290066DCEC2C1940B1677C\
         39EABA29A0CADD6AD49D41EC1B62677E",
    );
}
