//! Writes a C file that holds `plaid.h` to the Rattle source: for each `#[repr(C)]` struct that an exported function takes or returns, a
//! copy made from the source, and assertions that the header's struct has its size, its fields' places and types; for each constant
//! of such a struct its value; and each exported function declared again, which a compiler refuses where the two declarations differ.
//!
//!     layout CRATES EXPORTED.rt     every crates/*/src/lib.rt below CRATES is read for structs; EXPORTED.rt for functions
//!
//! A source that it cannot read ends it with an error.

use std::collections::{BTreeMap, BTreeSet};
use std::{env, fs};

/// A struct's fields in order, each with its Rattle type.
type Structs = BTreeMap<String, Vec<(String, String)>>;

struct Source {
    structs: Structs,
    /// Constants by struct: name and value.
    constants: BTreeMap<String, Vec<(String, String)>>,
}

struct Function {
    name: String,
    parameters: Vec<String>,
    result: String,
}

fn without_comments(text: &str) -> String {
    text.lines().map(|l| l.split("//").next().unwrap()).collect::<Vec<_>>().join("\n")
}

/// What stands between two marks, and what follows the second.
fn between<'a>(text: &'a str, open: &str, close: &str) -> Option<(&'a str, &'a str)> {
    let (_, rest) = text.split_once(open)?;
    rest.split_once(close)
}

/// `name: type` pairs of a list; `pub` is passed over.
fn pairs(list: &str) -> Vec<(String, String)> {
    let mut found = Vec::new();
    for item in list.split(',').map(str::trim).filter(|i| !i.is_empty()) {
        let (name, of) = item.split_once(':').unwrap_or_else(|| panic!("'{item}' is not name: type"));
        found.push((name.trim().trim_start_matches("pub ").to_string(), of.trim().to_string()));
    }
    found
}

fn read_structs(text: &str, to: &mut Structs) {
    for part in text.split("#[repr(C)]").skip(1) {
        let (_, rest) = part.split_once("pub struct ").expect("a struct behind #[repr(C)]");
        let name: String = rest.chars().take_while(|c| c.is_alphanumeric()).collect();
        let fields = match rest[name.len()..].trim_start().chars().next() {
            Some('(') => {
                let (inner, _) = between(rest, "(pub ", ")").expect("a tuple struct of one public field");
                vec![("value".to_string(), inner.to_string())]
            }
            Some('{') => pairs(between(rest, "{", "}").expect("a struct's end").0),
            _ => panic!("struct {name}: neither fields nor a tuple"),
        };
        assert!(to.insert(name.clone(), fields).is_none(), "struct {name} stands twice");
    }
}

fn read_constants(text: &str, to: &mut BTreeMap<String, Vec<(String, String)>>) {
    for part in text.split("\nimpl ").skip(1) {
        let (name, body) = part.split_once(" {").expect("an impl block");
        let body = body.split("\n}").next().unwrap();
        for constant in body.split("pub const ").skip(1) {
            let (label, rest) = constant.split_once(':').expect("a constant's name");
            let (_, value) = rest.split(';').next().unwrap().split_once('=').expect("a constant's value");
            to.entry(name.to_string()).or_default().push((label.to_string(), value.trim().to_string()));
        }
    }
}

fn read_source(crates: &str) -> Source {
    let mut source = Source { structs: Structs::new(), constants: BTreeMap::new() };
    for entry in fs::read_dir(crates).expect("the folder of crates") {
        let file = entry.unwrap().path().join("src/lib.rt");
        if let Ok(text) = fs::read_to_string(&file) {
            let text = without_comments(&text);
            read_structs(&text, &mut source.structs);
            read_constants(&text, &mut source.constants);
        }
    }
    for (_, of) in source.structs.values_mut().flatten() {
        *of = with_length(of, &source.constants);
    }
    source
}

/// An array type whose length is a constant of a struct, with the constant's value.
fn with_length(of: &str, constants: &BTreeMap<String, Vec<(String, String)>>) -> String {
    match array(of).and_then(|(element, count)| Some((element, count.split_once("::")?))) {
        Some((element, (name, label))) => {
            let value = constants.get(name).into_iter().flatten().find(|(l, _)| l == label);
            let (_, value) = value.unwrap_or_else(|| panic!("no constant {name}::{label}"));
            format!("[{element}; {value}]")
        }
        None => of.to_string(),
    }
}

fn read_functions(text: &str) -> Vec<Function> {
    let mut found = Vec::new();
    for part in text.split("pub extern \"C\" fn ").skip(1) {
        let (name, rest) = part.split_once('(').expect("a function's parameters");
        let (list, rest) = rest.split_once(')').expect("their end");
        let (result, _) = between(rest, "->", "\n").expect("a result");
        let parameters = pairs(list).into_iter().map(|(_, of)| of).collect();
        found.push(Function { name: name.to_string(), parameters, result: result.trim().trim_end_matches('{').trim().to_string() });
    }
    assert!(!found.is_empty(), "no exported function");
    found
}

/// `KeySetId` as `key_set_id`.
fn snake(name: &str) -> String {
    let mut out = String::new();
    for (i, c) in name.char_indices() {
        if c.is_uppercase() && i > 0 {
            out.push('_');
        }
        out.push(c.to_ascii_lowercase());
    }
    out
}

/// An array type's element and count.
fn array(of: &str) -> Option<(&str, &str)> {
    let (element, count) = of.strip_prefix('[')?.strip_suffix(']')?.rsplit_once(';')?;
    Some((element.trim(), count.trim()))
}

/// A type that is no array, in C; a struct's gets the prefix.
fn c_type(of: &str, prefix: &str) -> String {
    match of {
        "u8" | "u16" | "u32" | "u64" => format!("uint{}_t", &of[1..]),
        "usize" => "size_t".to_string(),
        "bool" => "bool".to_string(),
        _ => format!("{prefix}{}", snake(of)),
    }
}

/// A lent slice passes as a pointer and then a length.
fn c_parameters(of: &str) -> String {
    let (qualifier, rest) = match of.strip_prefix("&mut ") {
        Some(rest) => ("", rest),
        None => ("const ", of.strip_prefix('&').unwrap_or(of)),
    };
    match rest.strip_prefix('[').and_then(|r| r.strip_suffix(']')) {
        Some(element) if of.starts_with('&') => format!("{qualifier}{} *, size_t", c_type(element, "plaid_")),
        _ => c_type(of, "plaid_"),
    }
}

/// The structs that a type needs, each behind those that it holds.
fn reach(of: &str, structs: &Structs, seen: &mut BTreeSet<String>, order: &mut Vec<String>) {
    let name = of.trim_start_matches("&mut ").trim_start_matches('&');
    let name = array(name).map_or(name, |(element, _)| element).trim_matches(|c| c == '[' || c == ']');
    if let Some(fields) = structs.get(name) {
        if seen.insert(name.to_string()) {
            for (_, inner) in fields {
                reach(inner, structs, seen, order);
            }
            order.push(name.to_string());
        }
    }
}

fn assertion(test: &str, label: &str) {
    println!("_Static_assert({test}, \"{label}\");");
}

fn write_struct(name: &str, fields: &[(String, String)]) {
    let (ours, theirs) = (format!("struct source_{}", snake(name)), format!("plaid_{}", snake(name)));
    println!("{ours} {{");
    for (field, of) in fields {
        match array(of) {
            Some((element, count)) => println!("    {} {field}[{count}];", c_type(element, "struct source_")),
            None => println!("    {} {field};", c_type(of, "struct source_")),
        }
    }
    println!("}};");
    assertion(&format!("sizeof({theirs}) == sizeof({ours})"), &format!("{theirs}: size"));
    for (field, of) in fields {
        let label = format!("{theirs}.{field}");
        assertion(&format!("offsetof({theirs}, {field}) == offsetof({ours}, {field})"), &format!("{label}: place"));
        let wanted = match array(of) {
            Some((element, count)) => format!("{}[{count}]", c_type(element, "plaid_")),
            None => c_type(of, "plaid_"),
        };
        assertion(&format!("__builtin_types_compatible_p(__typeof__((({theirs} *)0)->{field}), {wanted})"), &format!("{label}: type"));
    }
}

fn main() {
    let words: Vec<String> = env::args().collect();
    let source = read_source(&words[1]);
    let functions = read_functions(&without_comments(&fs::read_to_string(&words[2]).expect("the exported functions")));
    let (mut seen, mut order) = (BTreeSet::new(), Vec::new());
    for f in &functions {
        for of in f.parameters.iter().chain([&f.result]) {
            reach(of, &source.structs, &mut seen, &mut order);
        }
    }
    println!("#include \"plaid.h\"");
    for name in &order {
        write_struct(name, &source.structs[name]);
        for (label, value) in source.constants.get(name).into_iter().flatten() {
            let constant = format!("PLAID_{}_{label}", snake(name).to_uppercase());
            assertion(&format!("{constant} == {value}"), &constant);
        }
    }
    for f in &functions {
        let parameters: Vec<String> = f.parameters.iter().map(|of| c_parameters(of)).collect();
        println!("{} {}({});", c_type(&f.result, "plaid_"), f.name, parameters.join(", "));
    }
}
