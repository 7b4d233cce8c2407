//! Links the library under test, `libinterface.a`, and makes its declarations
//! for Rust out of the C header, so that the tests rely on what the header
//! says. The header is read form by form; a form that is not known here fails
//! the build.

use std::env;
use std::fs;
use std::path::{Path, PathBuf};
use std::process;
use std::str::FromStr;

fn main() {
    link_library();
    link_earlier_library();
    declare_header();
}

fn fail(reason: &str) -> ! {
    eprintln!("{reason}");
    process::exit(1);
}

fn tests_directory() -> PathBuf {
    PathBuf::from(env::var_os("CARGO_MANIFEST_DIR").expect("cargo names the manifest's directory"))
}

// --------------------------------------------------------------- linking

fn link_library() {
    println!("cargo:rerun-if-env-changed=SULGRACH_LIB_DIR");
    let directory = library_directory();
    let library = directory.join("libinterface.a");
    println!("cargo:rerun-if-changed={}", library.display());
    if !library.is_file() {
        fail(&format!(
            "{} is missing; make it with `rt lib` in the repository's directory crates/interface, \
             or name another directory in SULGRACH_LIB_DIR",
            library.display()
        ));
    }
    println!("cargo:rustc-link-search=native={}", directory.display());
    println!("cargo:rustc-link-lib=static=interface");
    // The test of the stack compiles a C program against the same library.
    println!("cargo:rustc-env=SULGRACH_LIBRARY={}", library.display());
}

fn library_directory() -> PathBuf {
    match env::var_os("SULGRACH_LIB_DIR") {
        Some(directory) => PathBuf::from(directory),
        None => tests_directory().join("../crates/interface/out"),
    }
}

/// For the benchmark: the check of an earlier version's library, as
/// `earlier_check`. All its other names are hidden, since they are the library's
/// too.
fn link_earlier_library() {
    println!("cargo:rerun-if-env-changed=SULGRACH_EARLIER_LIB_DIR");
    println!("cargo:rustc-check-cfg=cfg(earlier_library)");
    let Some(directory) = env::var_os("SULGRACH_EARLIER_LIB_DIR") else { return };
    let archive = PathBuf::from(directory).join("libinterface.a").display().to_string();
    println!("cargo:rerun-if-changed={archive}");
    let object = out_directory().join("earlier.o").display().to_string();
    run("ld", &["-r", "--whole-archive", &archive, "-o", &object]);
    run("objcopy", &["--redefine-sym", "sulgrach_check=earlier_check", &object]);
    run("objcopy", &["--keep-global-symbol=earlier_check", &object]);
    println!("cargo:rustc-link-arg-bin=benchmark={object}");
    println!("cargo:rustc-cfg=earlier_library");
}

fn run(program: &str, words: &[&str]) {
    match process::Command::new(program).args(words).status() {
        Ok(status) if status.success() => (),
        Ok(status) => fail(&format!("{program}: {status}")),
        Err(error) => fail(&format!("{program}: {error}")),
    }
}

// ------------------------------------------------------------ the header

fn declare_header() {
    let path = tests_directory().join("../include/sulgrach.h");
    println!("cargo:rerun-if-changed=build.rs");
    println!("cargo:rerun-if-changed={}", path.display());
    let text =
        fs::read_to_string(&path).unwrap_or_else(|error| fail(&format!("{}: {error}", path.display())));
    let header = read_header(&text).unwrap_or_else(|reason| fail(&format!("{}: {reason}", path.display())));
    write(&out_directory().join("header.rs"), &declarations(&header));
}

fn out_directory() -> PathBuf {
    PathBuf::from(env::var_os("OUT_DIR").expect("cargo names a directory for output"))
}

fn write(path: &Path, text: &str) {
    fs::write(path, text).unwrap_or_else(|error| fail(&format!("{}: {error}", path.display())));
}

/// What the header says: its constants, and its prototypes as Rust declares
/// them.
struct Header {
    constants: Vec<Constant>,
    calls: Vec<(String, String)>,
}

/// A constant, with the type that Rust gives it.
struct Constant {
    name: String,
    kind: &'static str,
    value: u64,
}

fn read_header(text: &str) -> Result<Header, String> {
    let (constants, rest) = read_directives(&without_comments(text)?)?;
    let mut calls = Vec::new();
    let mut prototypes: Vec<&str> = rest.split(';').collect();
    // What follows the last semicolon.
    let after = prototypes.pop().unwrap_or("");
    if !after.trim().is_empty() {
        return Err(format!("no prototype: {}", after.trim()));
    }
    for prototype in prototypes {
        calls.push(read_prototype(prototype.trim())?);
    }
    Ok(Header { constants, calls })
}

fn without_comments(text: &str) -> Result<String, String> {
    let mut kept = String::new();
    let mut rest = text;
    while let Some((before, after)) = rest.split_once("/*") {
        let (_, later) = after.split_once("*/").ok_or("a comment without an end")?;
        kept += before;
        kept += " ";
        rest = later;
    }
    Ok(kept + rest)
}

/// The constants, and all lines that are no directive. Lines for C++ alone
/// are left out.
fn read_directives(text: &str) -> Result<(Vec<Constant>, String), String> {
    let mut constants = Vec::new();
    let mut rest = String::new();
    let mut for_c_plus_plus = false;
    let mut guarded = false;
    for line in text.lines() {
        let words: Vec<&str> = line.split_whitespace().collect();
        match words[..] {
            ["#ifdef", "__cplusplus"] if !for_c_plus_plus => for_c_plus_plus = true,
            ["#endif"] if for_c_plus_plus => for_c_plus_plus = false,
            ["extern", "\"C\"", "{"] | ["}"] if for_c_plus_plus => (),
            _ if for_c_plus_plus => return Err(format!("unknown line for C++: {line}")),
            ["#ifndef", "SULGRACH_H"] if !guarded => guarded = true,
            ["#endif"] if guarded => guarded = false,
            ["#define", "SULGRACH_H"] | ["#include", "<stddef.h>" | "<stdint.h>"] => (),
            ["#define", name, value] => constants.push(read_constant(name, value)?),
            [first, ..] if first.starts_with('#') => return Err(format!("unknown directive: {line}")),
            _ => {
                rest += line;
                rest += "\n";
            }
        }
    }
    if for_c_plus_plus || guarded {
        return Err("a directive without its #endif".into());
    }
    Ok((constants, rest))
}

fn known_name(name: &str) -> Result<String, String> {
    let right = name.chars().all(|letter| letter.is_ascii_alphanumeric() || letter == '_');
    if !right || !name.starts_with(|letter: char| letter.is_ascii_alphabetic()) {
        return Err(format!("unknown form of a name: {name}"));
    }
    Ok(name.into())
}

/// `N`, of 32 bits, or `UINT64_C(N)`.
fn read_constant(name: &str, text: &str) -> Result<Constant, String> {
    let wide = text.strip_prefix("UINT64_C(").and_then(|rest| rest.strip_suffix(')'));
    let (kind, value) = match wide {
        Some(number) => ("u64", read_number(number)?),
        None => ("u32", read_number::<u32>(text)?.into()),
    };
    Ok(Constant { name: known_name(name)?, kind, value })
}

/// A decimal number that fits its type. C reads a leading 0 as octal, so there
/// is none.
fn read_number<N: FromStr + ToString>(text: &str) -> Result<N, String> {
    let number = text.parse().ok().filter(|number: &N| number.to_string() == text);
    number.ok_or_else(|| format!("unknown form of a number: {text}"))
}

/// `uint32_t NAME(TYPE NAME, ...)`: the name, and its declaration in Rust.
fn read_prototype(prototype: &str) -> Result<(String, String), String> {
    let unknown = || format!("unknown form of a prototype: {prototype}");
    let (head, parameters) = prototype.split_once('(').ok_or_else(unknown)?;
    let parameters = parameters.strip_suffix(')').ok_or_else(unknown)?;
    let (result, name) = head.trim().split_once(char::is_whitespace).ok_or_else(unknown)?;
    let (result, name) = (number_type(result)?, known_name(name.trim())?);
    let parameters: Result<Vec<String>, String> = parameters.split(',').map(read_parameter).collect();
    let declaration = format!("    pub fn {name}({}) -> {result};\n", parameters?.join(", "));
    Ok((name, declaration))
}

/// `TYPE NAME`, `TYPE *NAME` or `const TYPE *NAME`.
fn read_parameter(parameter: &str) -> Result<String, String> {
    let spaced = parameter.replace('*', " * ");
    let words: Vec<&str> = spaced.split_whitespace().collect();
    let (kind, name) = match words[..] {
        [kind, name] => (number_type(kind)?.to_string(), name),
        [kind, "*", name] => (format!("*mut {}", number_type(kind)?), name),
        ["const", kind, "*", name] => (format!("*const {}", number_type(kind)?), name),
        _ => return Err(format!("unknown form of a parameter: {}", parameter.trim())),
    };
    Ok(format!("{}: {kind}", known_name(name)?))
}

fn number_type(name: &str) -> Result<&'static str, String> {
    match name {
        "uint8_t" => Ok("u8"),
        "uint16_t" => Ok("u16"),
        "uint32_t" => Ok("u32"),
        "uint64_t" => Ok("u64"),
        "size_t" => Ok("usize"),
        _ => Err(format!("unknown type: {name}")),
    }
}

fn declarations(header: &Header) -> String {
    let mut text = String::new();
    for Constant { name, kind, value } in &header.constants {
        text += &format!("pub const {name}: {kind} = {value};\n");
    }
    let list: Vec<String> = header
        .constants
        .iter()
        .map(|Constant { name, value, .. }| format!("(\"{name}\", {value})"))
        .collect();
    text += "/// All constants of the header, in its order.\n";
    text += &format!("pub const CONSTANTS: &[(&str, u64)] = &[{}];\n", list.join(", "));
    let list: Vec<String> = header.calls.iter().map(|(name, _)| format!("\"{name}\"")).collect();
    text += "/// All calls of the header, in its order.\n";
    text += &format!("pub const CALLS: &[&str] = &[{}];\n", list.join(", "));
    text += "extern \"C\" {\n";
    header.calls.iter().for_each(|(_, declaration)| text += declaration);
    text + "}\n"
}
