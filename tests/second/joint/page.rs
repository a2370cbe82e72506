//! The text of the joint test: sections, notes, and named values in rows of 32 bytes.

use std::fmt::Write;

pub struct Page(String);

impl Page {
    pub fn new(head: &str) -> Page {
        Page(format!("{head}\n"))
    }

    pub fn text(&self) -> &str {
        &self.0
    }

    fn line(&mut self, text: &str) {
        writeln!(self.0, "{}", text.trim_end()).unwrap();
    }

    pub fn section(&mut self, name: &str, what: &str) {
        self.line(&format!("\n[{name}]\n# {what}"));
    }

    pub fn note(&mut self, text: &str) {
        self.line(&format!("\n# {text}"));
    }

    fn rows(&mut self, value: &[u8]) {
        if value.is_empty() {
            self.line("    -");
        }
        for row in value.chunks(32) {
            let words: Vec<String> = row.chunks(4).map(|word| word.iter().map(|b| format!("{b:02X}")).collect()).collect();
            self.line(&format!("    {}", words.join(" ")));
        }
    }

    /// A value that both makers are given.
    pub fn input(&mut self, name: &str, value: &[u8]) {
        self.line(&format!("{name}: {} bytes, input", value.len()));
        self.rows(value);
    }

    /// A value that has to come out, with its formula or nothing.
    pub fn value(&mut self, name: &str, formula: &str, value: &[u8]) {
        let formula = if formula.is_empty() { String::new() } else { format!(" = {formula}") };
        self.line(&format!("{name}: {} bytes{formula}", value.len()));
        self.rows(value);
    }
}
