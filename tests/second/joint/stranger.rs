//! What a stranger gets: the card refuses, under its shill keys, with the status and the length of an answer.

use crate::agreed::Agreed;
use crate::inputs::Inputs;
use crate::page::Page;
use crate::reader::{enciphered, framed};
use crate::rsa;
use crate::session::{OK, encoded};

fn initial(page: &mut Page, inputs: &Inputs, agreed: &mut Agreed) {
    let of = &inputs.stranger;
    let command = framed(0x87, &of.list);
    page.input("IA command", &command);
    let malformed = framed(0x87, &of.malformed);
    page.input("IA command, malformed", &malformed);
    page.input("random string 1", &of.random1);
    page.input("PS", &of.ps);
    let (block, shill) = (encoded(&of.ps, &of.random1), inputs.load.shill_handle);
    page.value("EM", "00 || 02 || PS || 00 || random string 1", &block);
    agreed.answers(&command, &of.random1, &of.ps, &block, shill);
    agreed.answers(&malformed, &of.random1, &of.ps, &block, shill);
    let cipher = rsa::power(&block, inputs.key("ShillKey (RSA) e"), inputs.key("ShillKey (RSA) n")).unwrap();
    page.value("RSAEncrypt", "EM to the power e modulo n of ShillKey (RSA)", &cipher);
    page.value("IA response", "RSAEncrypt || 90 00, to either command", &[&cipher[..], &OK].concat());
}

pub fn write(page: &mut Page, inputs: &Inputs, agreed: &mut Agreed) {
    let of = &inputs.stranger;
    page.section("stranger", "A list with no set that the card holds, and a list with a wrong tag.");
    initial(page, inputs, agreed);

    page.note("A final command with no session open.");
    let command = framed(0x86, &of.data);
    page.input("FA command", &command);
    page.input("random string 3", &of.random3);
    let answer = enciphered(&inputs.load.shill_key, &of.random3);
    page.value("AESEncrypt", "random string 3 under ShillKey (AES), CBC", &answer);
    page.value("FA response", "AESEncrypt || 90 00", &[&answer[..], &OK].concat());
    agreed.answers(&command, &of.random3, &of.ps, &answer, 0);
}
