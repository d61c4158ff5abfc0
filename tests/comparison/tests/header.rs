//! The names and values that the packages in Rust have for kinds and numbers are the header's, all
//! of them; so are the limits, and the fields of the structs.

use comparison::calls::library;
use comparison::formats::files::{
    LONGEST_PATCH_FILE, LONGEST_SLICE_FILE, LONGEST_TYPE_FILE, MOST_ARRIVALS,
};
use comparison::formats::totals::{GREATEST_TOTAL, TOTALS_SECTION};
use std::collections::BTreeMap;

const HEADER: &str = include_str!("../../../include/wosthile.h");
const KINDS: &str = include_str!("../src/formats/kinds.rs");
const FAULTS: &str = include_str!("../src/formats/fault.rs");
const LIBRARY: &str = include_str!("../src/calls/library.rs");

/// The members of an enum of the header, without the beginning that they share.
fn members(name: &str, beginning: &str) -> BTreeMap<String, u32> {
    let start = HEADER.find(&format!("enum {name} {{")).expect(name);
    HEADER[start..]
        .lines()
        .skip(1)
        .take_while(|line| !line.starts_with('}'))
        .filter_map(|line| line.split("/*").next()?.trim().split_once(" = "))
        .map(|(member, value)| {
            let member = member.strip_prefix(beginning).unwrap_or(member);
            (
                member.to_string(),
                value.trim_matches([',', ' ']).parse().expect(value),
            )
        })
        .collect()
}

/// The constants with a value in digits that a text in Rust declares.
fn constants(text: &str) -> BTreeMap<String, u32> {
    text.lines()
        .filter_map(|line| line.trim().strip_prefix("pub const ")?.split_once(": u"))
        .filter_map(|(name, rest)| {
            let value = rest.split_once(" = ")?.1.trim_end_matches(';');
            Some((name.to_string(), value.parse().ok()?))
        })
        .filter(|(name, _)| name != "LISTED")
        .collect()
}

/// What the header defines a name as.
fn defined(name: &str) -> &'static str {
    let define = format!("#define {name} ");
    (HEADER.lines().find_map(|line| line.strip_prefix(&define))).expect(name)
}

/// The fields of a struct of the header, in order, each with its type in Rust.
fn header_fields(name: &str) -> Vec<(String, String)> {
    let end = HEADER.find(&format!("}} {name};")).expect(name);
    let start = HEADER[..end].rfind("typedef struct {").expect(name);
    HEADER[start..end]
        .lines()
        .filter_map(|line| line.split_once(';')?.0.trim().split_once(' '))
        .map(|(c_type, field)| {
            let rust_type = match c_type {
                "uint32_t" => "u32",
                "size_t" => "usize",
                other => other,
            };
            (field.to_string(), rust_type.to_string())
        })
        .collect()
}

/// The fields of a struct that stands for one of the header's, in order.
fn rust_fields(name: &str) -> Vec<(String, String)> {
    let start = LIBRARY.find(&format!("pub struct {name} {{")).expect(name);
    LIBRARY[start..]
        .lines()
        .skip(1)
        .take_while(|line| !line.starts_with('}'))
        .filter_map(|line| line.trim().strip_prefix("pub ")?.split_once(": "))
        .map(|(field, rest)| (field.to_string(), rest.trim_end_matches(',').to_string()))
        .collect()
}

/// The text of a module of kinds.
fn module(name: &str) -> &'static str {
    let start = KINDS.find(&format!("pub mod {name} {{")).expect(name);
    &KINDS[start..start + KINDS[start..].find("\n}").expect("the end of a module")]
}

#[test]
fn kinds_are_those_of_the_header() {
    for what in ["type", "slice", "node"] {
        let header = members(
            &format!("wosthile_{what}_kind"),
            &format!("WOSTHILE_{}_", what.to_uppercase()),
        );
        assert!(header.len() >= 5, "{what}: {header:?}");
        assert_eq!(header, constants(module(&format!("{what}_kind"))), "{what}");
    }
}

#[test]
fn numbers_are_those_of_the_header() {
    let mut header = members("wosthile_number", "WOSTHILE_FAULT_");
    let accepted = header.remove("WOSTHILE_ACCEPTED").expect("accepted");
    header.insert("ACCEPTED".to_string(), accepted);
    assert!(header.len() >= 15, "{header:?}");
    assert_eq!(header, constants(FAULTS));
}

#[test]
fn limits_are_those_of_the_header() {
    for (name, limit) in [
        ("WOSTHILE_TYPE_FILE_MAX", LONGEST_TYPE_FILE),
        ("WOSTHILE_SLICE_FILE_MAX", LONGEST_SLICE_FILE),
        ("WOSTHILE_PATCH_FILE_MAX", LONGEST_PATCH_FILE),
        ("WOSTHILE_ARRIVALS_MAX", MOST_ARRIVALS as usize),
        ("WOSTHILE_TOTAL_MAX", GREATEST_TOTAL as usize),
        ("WOSTHILE_TOTALS_SECTION", TOTALS_SECTION),
    ] {
        // In C a number above 2,147,483,647 is marked as one without a sign.
        let digits = defined(name).trim_end_matches('u');
        assert_eq!(digits, limit.to_string(), "{name}");
    }
}

#[test]
fn fields_are_those_of_the_header() {
    for (c_name, name, fields) in [
        ("wosthile_written", "Written", 2),
        ("wosthile_admitted", "Admitted", 3),
        ("wosthile_fed", "Fed", 5),
    ] {
        let header = header_fields(c_name);
        assert_eq!(header.len(), fields, "{c_name}: {header:?}");
        assert_eq!(header, rust_fields(name), "{name}");
    }
}

#[test]
fn the_archive_is_of_the_headers_interface() {
    assert_eq!(defined("WOSTHILE_ABI"), library::ABI.to_string());
    assert_eq!(library::abi(), library::ABI);
}
