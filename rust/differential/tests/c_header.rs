//! The C header declares what the raw module declares, and both what the Rattle source exports: a comparison
//! of the texts.

use hoursquall::{framelog, replay, sfi};
use std::collections::BTreeSet;
use std::path::Path;
use std::{env, fs};

const RAW: &str = include_str!("../../hoursquall/src/raw.rs");
const HEADER: &str = include_str!("../../../include/hoursquall.h");

/// The header with every run of white space as one space.
fn header() -> String {
    HEADER.split_whitespace().collect::<Vec<_>>().join(" ")
}

/// Each function of the raw module as C declares it.
fn declarations() -> Vec<String> {
    RAW.split("pub fn ").skip(1).map(declaration).collect()
}

fn declaration(item: &str) -> String {
    let (head, tail) = item.split_once(") -> ").expect("every function answers");
    let (name, parameters) = head.split_once('(').expect("a list of parameters");
    let (answer, _) = tail.split_once(';').expect("an end");
    let parameters: Vec<String> = parameters
        .split(',')
        .map(str::trim)
        .filter(|parameter| !parameter.is_empty())
        .map(|parameter| parameter.split_once(": ").expect("name: type"))
        .map(|(name, kind)| declarator(name, kind))
        .collect();
    let answer = declarator(name, answer);
    format!("{answer}({});", parameters.join(", "))
}

fn declarator(name: &str, kind: &str) -> String {
    match kind {
        "u8" => format!("uint8_t {name}"),
        "u32" => format!("uint32_t {name}"),
        "u64" => format!("uint64_t {name}"),
        "usize" => format!("size_t {name}"),
        "*const u8" => format!("const uint8_t *{name}"),
        "*mut u8" => format!("uint8_t *{name}"),
        "*mut u32" => format!("uint32_t *{name}"),
        "*mut usize" => format!("size_t *{name}"),
        "*mut [u32; 7]" => format!("uint32_t {name}[HS_HEADER_WORDS]"),
        "*mut [u32; 5]" => format!("uint32_t {name}[HS_WORDS]"),
        "*mut [u64; 8]" => format!("uint64_t {name}[HS_STATE_NUMBERS]"),
        "*mut [u64; 9]" => format!("uint64_t {name}[HS_PLAYER_NUMBERS]"),
        "*mut [u8; 4096]" => format!("uint8_t {name}[HS_MESSAGE_MAX]"),
        "*mut [usize; 2]" if name == "positions" => format!("size_t {name}[HS_POSITIONS]"),
        "*mut [usize; 2]" if name == "part" => format!("size_t {name}[HS_TABLE_NUMBERS]"),
        "*mut [usize; 3]" if name == "root" => format!("size_t {name}[HS_ROOT_NUMBERS]"),
        "*mut [usize; 3]" if name == "body" => format!("size_t {name}[HS_BODY_NUMBERS]"),
        _ => panic!("{name}: no C type is listed here for {kind}"),
    }
}

#[test]
fn every_function_is_declared() {
    let header = header();
    let declarations = declarations();
    assert!(!declarations.is_empty());
    for declaration in &declarations {
        assert!(header.contains(declaration), "missing: {declaration}");
    }
    let declared = header.split(' ').filter(|word| is_function(word)).count();
    assert_eq!(declared, declarations.len(), "functions in the header");
}

fn is_function(word: &str) -> bool {
    word.starts_with("hs_") && word.contains('(')
}

/// The names that follow a marker.
fn names(text: &str, marker: &str) -> BTreeSet<String> {
    let name = |rest: &str| {
        let end = rest.find('(').expect("a list of parameters");
        rest[..end].to_string()
    };
    text.split(marker).skip(1).map(name).collect()
}

#[test]
fn what_is_exported_is_declared() {
    let crates = Path::new(env!("CARGO_MANIFEST_DIR")).join("../../crates");
    let mut exported = BTreeSet::new();
    for library in ["hoursquall_c", "hoursquall_replay"] {
        let source = crates.join(library).join("src");
        for file in fs::read_dir(source).expect("the library's source") {
            let text = fs::read_to_string(file.expect("a file").path()).expect("text");
            exported.extend(names(&text, "pub extern \"C\" fn "));
        }
    }
    assert_eq!(exported, names(RAW, "pub fn "));
}

/// Each constant of the header that is not hexadecimal: sizes, places of the words that are handed out, answers,
/// and refusals by their numbers in document 01.
const CONSTANTS: [(&str, usize); 88] = [
    ("HS_HEADER_SIZE", hoursquall::HEADER_SIZE),
    ("HS_FRAME_MAX", hoursquall::FRAME_MAX),
    ("HS_PIECE_MAX", hoursquall::PIECE_MAX),
    ("HS_MESSAGE_MAX", hoursquall::MESSAGE_MAX),
    ("HS_RING_MIN", hoursquall::RING_MIN),
    ("HS_RING_MAX", hoursquall::RING_MAX),
    ("HS_NOTICE_HEADER_SIZE", hoursquall::NOTICE_HEADER_SIZE),
    ("HS_NOTICE_MAX", hoursquall::NOTICE_MAX),
    ("HS_TABLE_HEADER_SIZE", hoursquall::TABLE_HEADER_SIZE),
    ("HS_ROOT_HEADER_SIZE", hoursquall::ROOT_HEADER_SIZE),
    ("HS_TABLE_MAX", hoursquall::TABLE_MAX),
    ("HS_SLOTS_MAX", hoursquall::SLOTS_MAX),
    ("HS_NAME_MAX", hoursquall::NAME_MAX),
    ("HS_SFI_HEADER_SIZE", sfi::HEADER_SIZE),
    ("HS_SFI_MAX", sfi::TABLE_MAX),
    ("HS_SFI_MEMORY_SIZE", sfi::MEMORY_SIZE),
    ("HS_LOG_RECORD_SIZE", framelog::RECORD_SIZE),
    ("HS_LOG_HEADER_SIZE", framelog::HEADER_SIZE),
    ("HS_LOG_FRAME_MAX", framelog::FRAME_MAX),
    ("HS_LINE_MAX", replay::LINE_MAX),
    ("HS_PLAYER_NUMBERS", replay::PLAYER_NUMBERS),
    ("HS_HEADER_SEQUENCE", 0),
    ("HS_HEADER_INDEX", 1),
    ("HS_HEADER_ID", 2),
    ("HS_HEADER_SENDER", 3),
    ("HS_HEADER_RECEIVER", 4),
    ("HS_HEADER_STATUS", 5),
    ("HS_HEADER_TOTAL", 6),
    ("HS_HEADER_WORDS", 7),
    ("HS_WORD_SEQUENCE", 0),
    ("HS_WORD_ID", 1),
    ("HS_WORD_SENDER", 2),
    ("HS_WORD_STATUS", 3),
    ("HS_WORD_TOTAL", 4),
    ("HS_WORDS", 5),
    ("HS_STATE_NUMBERS", 8),
    ("HS_POSITIONS", 2),
    ("HS_TABLE_NUMBERS", 2),
    ("HS_ROOT_NUMBERS", 3),
    ("HS_BODY_NUMBERS", 3),
    ("HS_OK", 0),
    ("HS_MORE", 0),
    ("HS_DELIVERED", 100),
    ("HS_SFI_BOARD", 101),
    ("HS_SFI_BUILT_IN", 102),
    ("HS_REFUSED_FRAME_SHORT", 1),
    ("HS_REFUSED_FRAME_LONG", 2),
    ("HS_REFUSED_WRONG_TYPE", 3),
    ("HS_REFUSED_OTHER_RECEIVER", 4),
    ("HS_REFUSED_NOTHING_OPEN", 5),
    ("HS_REFUSED_OUT_OF_ORDER", 6),
    ("HS_REFUSED_OTHER_WORDS", 7),
    ("HS_REFUSED_NO_DATA", 8),
    ("HS_REFUSED_TOO_MUCH_DATA", 9),
    ("HS_REFUSED_MESSAGE_LONG", 10),
    ("HS_REFUSED_BAD_STATE", 11),
    ("HS_REFUSED_PIECE_SIZE", 12),
    ("HS_REFUSED_NO_FRAME", 13),
    ("HS_REFUSED_OUTPUT_SHORT", 14),
    ("HS_REFUSED_BAD_RING", 20),
    ("HS_REFUSED_EMPTY", 21),
    ("HS_REFUSED_DAMAGED", 22),
    ("HS_REFUSED_NOTICE_OUTPUT_SHORT", 23),
    ("HS_REFUSED_NOTICE_LONG", 24),
    ("HS_REFUSED_FULL", 25),
    ("HS_REFUSED_TABLE_OUTSIDE", 30),
    ("HS_REFUSED_TABLE_MISALIGNED", 31),
    ("HS_REFUSED_TABLE_SIZE", 32),
    ("HS_REFUSED_TABLE_VERSION", 33),
    ("HS_REFUSED_TABLE_SUM", 34),
    ("HS_REFUSED_NOT_ROOT", 35),
    ("HS_REFUSED_SLOT_COUNT", 36),
    ("HS_REFUSED_NO_TABLE", 37),
    ("HS_REFUSED_TWO_TABLES", 38),
    ("HS_REFUSED_BAD_NAME", 39),
    ("HS_REFUSED_SFI_LENGTH", 40),
    ("HS_REFUSED_SFI_SUM", 41),
    ("HS_REFUSED_SFI_SIGNATURE", 42),
    ("HS_REFUSED_SFI_ENTRIES", 43),
    ("HS_REFUSED_SFI_REVISION", 44),
    ("HS_REFUSED_NO_ENTRY", 45),
    ("HS_REFUSED_SFI_MEMORY", 46),
    ("HS_REFUSED_NO_SYST", 47),
    ("HS_REFUSED_NEITHER", 48),
    ("HS_REFUSED_LOG_SIZE", 50),
    ("HS_REFUSED_LOG_NOT_ZERO", 51),
    ("HS_REFUSED_LOG_FRAME_LONG", 52),
    ("HS_REFUSED_LOG_END", 53),
];

/// Signatures, each the little-endian word of its letters.
const SIGNATURES: [(&str, u32); 10] = [
    ("HS_SFI_SYST", sfi::SYST),
    ("HS_SFI_CPUS", sfi::CPUS),
    ("HS_SFI_APIC", sfi::APIC),
    ("HS_SFI_MMAP", sfi::MMAP),
    ("HS_SFI_FREQ", sfi::FREQ),
    ("HS_SFI_MRTC", sfi::MRTC),
    ("HS_SFI_DEVS", sfi::DEVS),
    ("HS_SFI_GPIO", sfi::GPIO),
    ("HS_SFI_MTMR", sfi::MTMR),
    ("HS_SFI_WAKE", sfi::WAKE),
];

#[test]
fn constants_agree() {
    let header = header();
    for (name, value) in CONSTANTS {
        let definition = format!(" {name} = {value},");
        assert!(header.contains(&definition), "missing: {definition}");
    }
}

/// How many constants the header's enums have, with a value or without.
fn enumerators() -> usize {
    let text: String = HEADER
        .split("/*")
        .map(|part| part.split_once("*/").map_or(part, |(_, code)| code))
        .collect();
    let bodies = text.split("enum {").skip(1);
    let body = |part: &str| part.split_once('}').expect("an end").0.to_string();
    bodies
        .map(body)
        .map(|body| body.split(',').filter(|one| !one.trim().is_empty()).count())
        .sum()
}

#[test]
fn every_constant_is_compared() {
    let header = header();
    let defined: BTreeSet<&str> = header
        .split(' ')
        .filter(|word| word.starts_with("HS_"))
        .filter(|word| header.contains(&format!(" {word} = ")))
        .collect();
    let constants = CONSTANTS.iter().map(|(name, _)| *name);
    let signatures = SIGNATURES.iter().map(|(name, _)| *name);
    assert_eq!(defined, constants.chain(signatures).collect());
    assert_eq!(enumerators(), defined.len());
}

#[test]
fn signatures_agree() {
    assert_eq!(sfi::SYST, 0x5453_5953);
    let header = header();
    for (name, signature) in SIGNATURES {
        assert_eq!(signature.to_le_bytes(), name.as_bytes()[name.len() - 4..]);
        assert_eq!(hexadecimal(&header, name), Some(signature), "{name}");
    }
}

/// The value of a constant that the header defines in hexadecimal.
fn hexadecimal(header: &str, name: &str) -> Option<u32> {
    let (_, value) = header.split_once(&format!(" {name} = 0x"))?;
    let end = value.find(|letter: char| !letter.is_ascii_hexdigit())?;
    u32::from_str_radix(&value[..end], 16).ok()
}
