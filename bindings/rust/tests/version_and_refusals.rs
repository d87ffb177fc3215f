// SPDX-License-Identifier: LicenseRef-Wengeludo
//! The version, and the list of refusals: each number's smallest file is refused with it, and the file without its last byte is not.

use wengeludo_balance::{raw, version, Refusal, FILE_SIZE, MAX_STREAMS, MAX_SURVEYED, OFFICES, SHEET_SIZE, VERSION};

const LIST: &str = include_str!("../../../tools/refusals.tsv");

#[test]
fn the_archive_has_this_version() {
    assert_eq!(version(), VERSION);
    let parts: Vec<u32> = env!("CARGO_PKG_VERSION").split('.').map(|part| part.parse().unwrap()).collect();
    assert_eq!(VERSION, 10_000 * parts[0] + 100 * parts[1] + parts[2]);
}

/// The bytes that the list has in words: `01 02`, and `N times` before a code that is repeated.
fn bytes(words: &str) -> Vec<u8> {
    let mut bytes = Vec::new();
    let mut pieces = words.split('`');
    while let (Some(before), Some(code)) = (pieces.next(), pieces.next()) {
        let times = before.trim().trim_start_matches(',').trim().strip_suffix("times").map_or(1, |n| n.trim().parse().unwrap());
        let code: Vec<u8> = code.split(' ').map(|byte| u8::from_str_radix(byte, 16).unwrap()).collect();
        for _ in 0..times {
            bytes.extend(&code);
        }
    }
    bytes
}

/// The number that the call returns to which the refusal belongs.
fn number_of(refusal: u8, file: &[u8]) -> u8 {
    let (mut out, mut written, mut marked) = ([0; FILE_SIZE], 0, 0);
    let sheet = &mut out[..SHEET_SIZE];
    match refusal {
        1 => raw::balance_plant(file, 0, &mut [0; OFFICES], &mut sheet[1..], &mut written, &mut marked),
        2 => raw::balance_plant(file, 0, &mut [u32::MAX; OFFICES], sheet, &mut written, &mut marked),
        13..=15 => raw::read_sheet(file, &mut [0; MAX_STREAMS], &mut [0; MAX_STREAMS], &mut raw::Total::default()),
        16..=17 => raw::plant_from_transmitter(file, &mut out, &mut written),
        20 => raw::from_ranged(file, &mut out, &mut written),
        21 => raw::meters_to_buy(file, &[1], &mut [0; MAX_STREAMS], &mut written, &mut 0),
        22 => raw::balance_plant(file, 8, &mut [0; OFFICES], sheet, &mut written, &mut marked),
        23 => raw::layouts_of(file, &mut [0; MAX_SURVEYED + 1], &mut written),
        24 | 25 => raw::charges(file, &[0], &mut [0; MAX_STREAMS], &mut [0; MAX_STREAMS], &mut written, &mut 0),
        26 => raw::check_sheet(&file[..file.len().min(4)], &file[file.len().min(4)..], &[]),
        _ => raw::balance_plant(file, 0, &mut [0; OFFICES], sheet, &mut written, &mut marked),
    }
}

#[test]
fn smallest_files() {
    let mut tried = 0;
    for line in LIST.lines().skip(1) {
        let columns: Vec<&str> = line.split('\t').collect();
        let number: u8 = columns[0].parse().unwrap();
        assert_eq!(Refusal::from_number(number).unwrap().text(), columns[3]);
        let file = bytes(columns[4]);
        assert_eq!(number_of(number, &file), number, "the smallest file of {number}");
        if let Some((_, shorter)) = file.split_last() {
            assert_ne!(number_of(number, shorter), number, "the smallest file of {number} without its last byte");
        }
        tried += 1;
    }
    assert!(tried >= 22);
}
