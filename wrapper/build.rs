//! Links the archive that `rt lib` writes in `crates/lekhnaom` (SLASH_ARCHIVE names another folder that has it), and
//! takes from `include/slash.h` what stands there once: the version, the numbers, the texts of the stops.

use std::path::{Path, PathBuf};
use std::{env, fs};

fn main() {
    let root = folder_named("CARGO_MANIFEST_DIR").expect("cargo sets it");
    let archive = folder_named("SLASH_ARCHIVE").unwrap_or(root.join("../crates/lekhnaom/out"));
    link(&archive);
    let built = folder_named("OUT_DIR").expect("cargo sets it");
    translate(&root.join("../include/slash.h"), &built.join("header.rs"));
}

fn folder_named(variable: &str) -> Option<PathBuf> {
    env::var_os(variable).map(PathBuf::from)
}

fn link(archive: &Path) {
    println!("cargo:rerun-if-env-changed=SLASH_ARCHIVE");
    let file = archive.join("liblekhnaom.a");
    println!("cargo:rerun-if-changed={}", file.display());
    println!("cargo:rustc-link-search=native={}", archive.display());
    println!("cargo:rustc-link-lib=static=lekhnaom");
}

/// Writes the header's definitions and its texts of stops as Rust. A header without them makes Rust that isn't
/// compiled.
fn translate(header: &Path, rust: &Path) {
    println!("cargo:rerun-if-changed={}", header.display());
    let text = fs::read_to_string(header).expect("the header is there");
    let constants: String = text.lines().filter_map(constant).collect();
    let arms: String = text.lines().filter_map(stop_arm).collect();
    let translated = format!(
        "{constants}\n/// A stop in words.\npub const fn stop_text(number: u8) -> &'static str {{\n    \
         match number {{\n{arms}    }}\n}}\n"
    );
    fs::write(rust, translated).expect("the folder for what is built can be written to");
}

/// The constant of a line `#define SLASH_NAME 1` or `#define SLASH_NAME "text"`.
fn constant(line: &str) -> Option<String> {
    let (name, rest) = line.strip_prefix("#define SLASH_")?.split_once(' ')?;
    let value = rest.split(" /*").next()?.trim();
    if value.starts_with('"') {
        return Some(format!("pub const {name}: &str = {value};\n"));
    }
    value.parse::<u64>().ok()?;
    Some(format!("pub const {name}: u64 = {value};\n"))
}

/// The arm of a line `case 1: return "text";` or `default: return "text";`.
fn stop_arm(line: &str) -> Option<String> {
    let (label, text) = line.trim().strip_suffix(';')?.split_once(": return ")?;
    let pattern = match label {
        "default" => "_",
        _ => label.strip_prefix("case ")?,
    };
    Some(format!("        {pattern} => {text},\n"))
}
