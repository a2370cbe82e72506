//! One session of the joint test: clause 6, steps 1 to 8.

use crate::aes::{self, Block};
use crate::agreed::Agreed;
use crate::card::KeySet;
use crate::fault::Fault;
use crate::inputs::{Inputs, KEY_LENGTH, Session};
use crate::padding::padded;
use crate::page::Page;
use crate::reader::{Accepting, Sealing, enciphered, framed, id_list};
use crate::rsa;
use crate::sha256;

/// RFC 3447, EME-PKCS1-v1_5.
pub fn encoded(ps: &[u8], message: &[u8]) -> Vec<u8> {
    [&[0, 2], ps, &[0], message].concat()
}

pub const OK: [u8; 2] = [0x90, 0x00];

/// The first listed set that the card holds.
fn chosen<'a>(inputs: &'a Inputs, list: &[u16]) -> &'a KeySet {
    list.iter().find_map(|id| inputs.load.sets.iter().find(|set| set.id == *id)).unwrap()
}

fn record<'a>(inputs: &'a Inputs, id: u16) -> &'a [u8] {
    let mode = inputs.load.modes.iter().find(|mode| mode.id == id).unwrap();
    &inputs.load.area[mode.start..][..mode.len]
}

/// B: the blocks of the longest record with DivData and padding.
fn reply_size(inputs: &Inputs) -> usize {
    let needed = |id| padded(&[record(inputs, id), &inputs.load.div_data].concat(), Fault::None).len() / 16;
    inputs.load.modes.iter().map(|mode| needed(mode.id)).max().unwrap()
}

/// Step 1. Gives the command that the card gets.
fn list(page: &mut Page, of: &Session) -> Vec<u8> {
    page.note("Step 1 (6.1): the reader sends its list in BER-TLV.");
    page.input("KeySetID list", &of.list.iter().flat_map(|id| id.to_be_bytes()).collect::<Vec<_>>());
    let command = framed(0x87, &id_list(&of.list));
    page.value("IA command", "00 87 00 00 Lc 30 length (04 02 KeySetID)* 00", &command);
    Agreed::lists(&of.list, &command);
    let Some(other) = &of.other else { return command };
    page.note("The same list in the indefinite form, its entries in long forms: the card gets\n# this in place of the command above.");
    let command = framed(0x87, other);
    page.input("IA command, other lengths", &command);
    command
}

/// Steps 1 to 4.
fn initial(page: &mut Page, inputs: &Inputs, of: &Session, agreed: &mut Agreed) {
    let command = list(page, of);
    page.note("Steps 2 and 3 (6.2, 6.3): the first listed set that the card holds.");
    let set = chosen(inputs, &of.list);
    page.value("KeySetID", "", &set.id.to_be_bytes());
    page.input("RND1", &of.rnd1);
    let str1 = [&set.id.to_be_bytes()[..], &inputs.load.div_data, &of.rnd1, &of.rnd1].concat();
    page.value("STR1", "KeySetID || DivData || RND1 || RND1", &str1);
    page.input("PS", &of.ps);
    let block = encoded(&of.ps, &str1);
    page.value("EM", "00 || 02 || PS || 00 || STR1", &block);
    agreed.answers(&command, &of.rnd1, &of.ps, &block, set.handle);
    let cipher = rsa::power(&block, inputs.key("IAKey e"), inputs.key("IAKey n")).unwrap();
    page.value("eSTR1", "EM to the power e modulo n", &cipher);
    page.value("IA response", "eSTR1 || 90 00", &[&cipher[..], &OK].concat());

    page.note("Step 4 (6.4): the reader decrypts; the two RND1 agree.");
    let plain = rsa::power(&cipher, inputs.key("IAKey d"), inputs.key("IAKey n")).unwrap();
    page.value("RSADecrypt(eSTR1)", "eSTR1 to the power d modulo n", &plain);
    Agreed::opens(&of.list, &plain.repeat(of.list.len()), set.id, &inputs.load.div_data, &of.rnd1);
}

/// Step 5. Gives KeysHash and the command.
fn final_command(page: &mut Page, inputs: &Inputs, of: &Session) -> (Block, Vec<u8>) {
    page.note("Step 5 (6.5): the reader, with the FAKey of that KeySetID.");
    page.input("RND2", &of.rnd2);
    let both = [of.rnd1, of.rnd2].concat();
    page.value("RND1 || RND2", "", &both);
    let digest = sha256::hash(&both);
    page.value("SHA-256", "SHA-256 [RND1 || RND2]", &digest);
    let hash: Block = *digest.first_chunk().unwrap();
    page.value("KeysHash", "the first 16 bytes; also SessionKey", &hash);
    let set = chosen(inputs, &of.list);
    page.value("FAKey", "that of KeySetID", &set.fa_key);
    let key = aes::encipher(&aes::expand(&set.fa_key), &inputs.load.div_data);
    page.value("FAKey(DIV)", "AESEncrypt, key FAKey, of DivData", &key);
    page.input("OpModeID", &of.mode.to_be_bytes());
    page.input("Payload", &of.payload);
    let str2 = [&of.mode.to_be_bytes()[..], &of.rnd2, &of.payload, &hash].concat();
    page.value("STR2", "OpModeID || RND2 || Payload || KeysHash", &str2);
    let text = padded(&str2, Fault::None);
    page.value("STR2 padded", "STR2 || 80 || 00*", &text);
    let data = enciphered(&key, &text);
    page.value("eSTR2", "AESEncrypt, key FAKey(DIV), CBC, of STR2 padded", &data);
    let command = framed(0x86, &data);
    page.value("FA command", "00 86 00 00 Lc eSTR2 00", &command);
    let (fa_key, rnd1, rnd2) = (set.fa_key.clone(), of.rnd1.to_vec(), of.rnd2.to_vec());
    let sealing = Sealing { key_length: KEY_LENGTH, fa_key, div_data: inputs.load.div_data, rnd1, rnd2, mode: of.mode };
    Agreed::seals(&sealing, &of.payload, &hash, &command);
    (hash, command)
}

/// Steps 6 and 7. Gives eSTR3.
fn final_answer(page: &mut Page, inputs: &Inputs, of: &Session, hash: &Block) -> Vec<u8> {
    page.note("Steps 6 and 7 (6.6, 6.7): the card finds the same KeysHash and answers.");
    let record = record(inputs, of.mode);
    page.value("ACSRecord", "that of OpModeID", record);
    let zeros = vec![0; (16 * (reply_size(inputs) - 2)).saturating_sub(record.len())];
    page.value("Payload of STR3", "00*, up to 16(B - 2) bytes with ACSRecord", &zeros);
    let str3 = [record, &zeros, &inputs.load.div_data].concat();
    page.value("STR3", "ACSRecord || Payload of STR3 || DivData", &str3);
    let text = padded(&str3, Fault::None);
    page.value("STR3 padded", "STR3 || 80 || 00*", &text);
    let answer = enciphered(hash, &text);
    page.value("eSTR3", "AESEncrypt, key KeysHash, CBC, of STR3 padded", &answer);
    page.value("FA response", "eSTR3 || 90 00", &[&answer[..], &OK].concat());
    answer
}

pub fn write(page: &mut Page, inputs: &Inputs, of: &Session, agreed: &mut Agreed) {
    let place = inputs.sessions.iter().position(|one| one.title == of.title).unwrap();
    page.section(&format!("session {}", place + 1), of.title);
    initial(page, inputs, of, agreed);
    let (hash, command) = final_command(page, inputs, of);
    let answer = final_answer(page, inputs, of, &hash);
    agreed.answers(&command, &[], &of.ps, &answer, 0);
    page.note("Step 8 (6.8): the reader deciphers STR3 padded, finds its DivData there,\n# and takes ACSRecord, the first bytes.");
    let record = record(inputs, of.mode);
    let (keys_hash, div_data) = (hash.to_vec(), inputs.load.div_data);
    let accepting = Accepting { key_length: KEY_LENGTH, keys_hash, div_data, record_length: record.len() };
    Agreed::accepts(&accepting, &answer, record);
}
