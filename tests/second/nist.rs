//! The second implementation's AES and SHA-256 on NIST's response files.

use std::collections::HashMap;

use crate::aes::{self, Block};
use crate::sha256;
use crate::tally::Tally;
use crate::transcript::{block, bytes};

const AES_FILES: &str = "crates/aes_vectors/data";
const SHA256_FILES: &str = "crates/sha256_vectors/data";

/// One vector: the fields since the last blank line, and the section's name.
struct Vector {
    section: String,
    fields: HashMap<String, String>,
}

impl Vector {
    fn bytes(&self, name: &str) -> Option<Vec<u8>> {
        bytes(self.fields.get(name)?)
    }

    fn block(&self, name: &str) -> Option<Block> {
        block(self.fields.get(name)?)
    }
}

fn vectors(path: &str) -> Vec<Vector> {
    let text = std::fs::read_to_string(path).unwrap_or_default();
    let mut section = String::new();
    let mut found = Vec::new();
    for paragraph in text.replace('\r', "").split("\n\n") {
        let mut fields = HashMap::new();
        for line in paragraph.lines().filter(|line| !line.starts_with('#')) {
            if line.starts_with('[') {
                section = line.to_string();
            } else if let Some((name, value)) = line.split_once(" = ") {
                fields.insert(name.to_string(), value.to_string());
            }
        }
        if !fields.is_empty() {
            found.push(Vector { section: section.clone(), fields });
        }
    }
    found
}

/// Known answers, one block or many: without IV each block stands alone.
fn aes_vector(vector: &Vector) -> Option<bool> {
    let keys = aes::expand(&vector.bytes("KEY")?);
    let (plain, cipher) = (vector.bytes("PLAINTEXT")?, vector.bytes("CIPHERTEXT")?);
    let enciphering = vector.section == "[ENCRYPT]";
    let (input, wanted) = if enciphering { (plain, cipher) } else { (cipher, plain) };
    let one = |block: &Block| if enciphering { aes::encipher(&keys, block) } else { aes::decipher(&keys, block) };
    let output = match vector.block("IV") {
        None => input.as_chunks().0.iter().flat_map(one).collect(),
        Some(start) if enciphering => aes::cbc_encipher(start, &input, one),
        Some(start) => aes::cbc_decipher(start, &input, one),
    };
    Some(!wanted.is_empty() && output == wanted)
}

fn sha256_vector(vector: &Vector) -> Option<bool> {
    let bits: usize = vector.fields.get("Len")?.parse().ok()?;
    let message = vector.bytes("Msg")?;
    Some(sha256::hash(message.get(..bits / 8)?)[..] == vector.bytes("MD")?)
}

/// FIPS' Monte Carlo test: a thousand hashes of the last three, from a seed that is each time the last result.
fn monte_carlo(file: &[Vector]) -> Option<Tally> {
    let mut tally = Tally::default();
    let mut seed = file.first()?.bytes("Seed")?;
    for vector in &file[1..] {
        let mut last = [seed.clone(), seed.clone(), seed];
        for _ in 0..1000 {
            let next = sha256::hash(&last.concat()).to_vec();
            let [_, second, third] = last;
            last = [second, third, next];
        }
        seed = last[2].clone();
        tally.count(seed == vector.bytes("MD")?);
    }
    Some(tally)
}

fn files(directory: &str) -> Vec<String> {
    let entries = std::fs::read_dir(directory).map_or(Vec::new(), |entries| entries.flatten().collect());
    let mut paths: Vec<String> = entries.iter().map(|e| e.path().display().to_string()).filter(|p| p.ends_with(".rsp")).collect();
    paths.sort();
    paths
}

/// Runs a file; a file without vectors, or with one that cannot be read, has failed there.
fn run_file(path: &str) -> Tally {
    let file = vectors(path);
    let mut tally = Tally::default();
    if path.contains("Monte") {
        tally = monte_carlo(&file).unwrap_or_default();
    } else {
        let one = if path.contains("SHA256") { sha256_vector } else { aes_vector };
        file.iter().for_each(|vector| tally.count(one(vector).unwrap_or(false)));
    }
    if tally.ran() == 0 {
        tally.count(false);
    }
    tally
}

pub fn run() -> Tally {
    let mut all = Tally::default();
    for (name, directory, least) in [("AES", AES_FILES, 30), ("SHA-256", SHA256_FILES, 3)] {
        let paths = files(directory);
        let mut tally = Tally::default();
        paths.iter().for_each(|path| tally.add(run_file(path)));
        if paths.len() < least {
            tally.count(false);
        }
        all.add(tally.reported(&format!("NIST, {name}, {} files", paths.len())));
    }
    all
}
