//! Published values of AES-128, GCM, the check, envelopes and challenge proofs.

use crate::{array, hex};
use reference::aes::Cipher;
use reference::check::check;
use reference::envelope::Sender;
use reference::gcm;

#[test]
fn check_of_nine_digits() {
    assert_eq!(check(b"123456789"), 0x906E);
}

#[test]
fn blocks_of_fips_197_and_sp_800_38a() {
    let example = "2b7e151628aed2a6abf7158809cf4f3c";
    let vectors = [
        (example, "3243f6a8885a308d313198a2e0370734", "3925841d02dc09fbdc118597196a0b32"),
        ("000102030405060708090a0b0c0d0e0f", "00112233445566778899aabbccddeeff", "69c4e0d86a7b0430d8cdb78070b4c55a"),
        (example, "6bc1bee22e409f96e93d7e117393172a", "3ad77bb40d7a3660a89ecaf32466ef97"),
        (example, "ae2d8a571e03ac9c9eb76fac45af8e51", "f5d3d58503b9699de785895a96fdbaaf"),
        (example, "30c81c46a35ce411e5fbc1191a0a52ef", "43b1cd7f598ece23881b00e3ed030688"),
        (example, "f69f2445df4f9b17ad2b417be66c3710", "7b0c785e27e8ad3f8223207104725dd4"),
    ];
    for (key, input, output) in vectors {
        assert_eq!(Cipher::new(&array(key)).encrypt(&array(input)), array(output));
    }
}

/// One case of the GCM specification, sealed and opened, and not opened where a bit of the tag is turned.
fn gcm_case(key: &str, nonce: &str, associated: &str, plain: &str, cipher_text: &str, tag: &str) {
    let (key, nonce, associated, mut tag) = (array(key), array(nonce), hex(associated), hex(tag));
    let (sealed, whole_tag) = gcm::seal(&key, &nonce, &associated, &hex(plain));
    assert_eq!((&sealed, &whole_tag[..]), (&hex(cipher_text), &tag[..]));
    assert_eq!(gcm::open(&key, &nonce, &associated, &sealed, &tag[..12]), Some(hex(plain)));
    tag[11] ^= 1;
    assert_eq!(gcm::open(&key, &nonce, &associated, &sealed, &tag[..12]), None);
}

#[test]
fn cases_of_the_gcm_specification() {
    let zeros = "00000000000000000000000000000000";
    let nonce = "000000000000000000000000";
    gcm_case(zeros, nonce, "", "", "", "58e2fccefa7e3061367f1d57a4e7455a");
    gcm_case(zeros, nonce, "", zeros, "0388dace60b6a392f328c2b971b2fe78", "ab6e47d42cec13bdf53a67b21257bddf");
    let (key, nonce) = ("feffe9928665731c6d6a8f9467308308", "cafebabefacedbaddecaf888");
    let plain = "d9313225f88406e5a55909c5aff5269a86a7a9531534f7da2e4c303d8a318a72\
                 1c3c0c95956809532fcf0e2449a6b525b16aedf5aa0de657ba637b391aafd255";
    let cipher_text = "42831ec2217774244b7221b784d0d49ce3aa212f2c02a4e035c17e2329aca12e\
                       21d514b25466931c7d8f6a5aac84aa051ba30b396a0aac973d58e091473f5985";
    gcm_case(key, nonce, "", plain, cipher_text, "4d5c2af327cd64a62cf35abd2ba6fab4");
    let associated = "feedfacedeadbeeffeedfacedeadbeefabaddad2";
    let tag = "5bc94fbc3221a5db94fae95ae7121a47";
    gcm_case(key, nonce, associated, &plain[..120], &cipher_text[..120], tag);
}

fn green_book_sender(title: &str) -> Sender {
    Sender {
        title: array(title),
        key: array("000102030405060708090A0B0C0D0E0F"),
        authentication: array("D0D1D2D3D4D5D6D7D8D9DADBDCDDDEDF"),
    }
}

#[test]
fn envelopes_of_the_green_book() {
    let sender = green_book_sender("4D4D4D0000BC614E");
    let get = hex("C0010000080000010000FF0200");
    let sealed = hex("C81E300123456741 1312FF935A47566827C467BC7D825C3BE4A77C3FCC056B6B");
    assert_eq!(sender.close(0xC8, 0x01234567, &get), sealed);
    assert_eq!(sender.open(0xC8, &sealed), Some((0x01234567, get)));
    let initiate = hex("01011000112233445566778899AABBCCDDEEFF0000065F1F0400007E1F04B0");
    let sealed =
        hex("21303001234567801302FF8A7874133D414CED25B42534D28DB0047720606B175BD52211BE6841DB204D39EE6FDB8E356855");
    assert_eq!(sender.close(0x21, 0x01234567, &initiate), sealed);
}

#[test]
fn proofs_of_figure_5_2() {
    let client = green_book_sender("4D4D4D0000000001").proof(1, &array("503677524A323146"));
    assert_eq!(client, hex("10000000011A52FE7DD3E72748973C1E28"));
    let server = green_book_sender("4D4D4D0000BC614E").proof(0x01234567, &array("4B35366956616759"));
    assert_eq!(server, hex("1001234567FE1466AFB3DBCD4F9389E2B7"));
}
