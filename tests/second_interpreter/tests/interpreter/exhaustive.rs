//! Every short string of bytes, against the package's lists of small types and
//! slices, made by building trees up instead of reading them.

use std::collections::HashMap;

use second_interpreter::{admit, every_slice, every_type, longest, slice_file, type_file, Type};

use crate::common::{is_complete, section};

/// Calls with every string of so many bytes below the bound.
pub fn every_string(length: usize, bound: u8, mut call: impl FnMut(&[u8])) {
    let mut bytes = vec![0; length];
    loop {
        call(&bytes);
        let Some(place) = bytes.iter().rposition(|byte| *byte + 1 < bound) else {
            return;
        };
        bytes[place] += 1;
        bytes[place + 1..].fill(0);
    }
}

#[test]
fn exactly_the_types_are_read() {
    for length in 1..=6 {
        let files: Vec<Vec<u8>> = every_type(length).iter().map(type_file).collect();
        let mut read = 0;
        every_string(length, 7, |bytes| {
            let file = section(bytes);
            // A type that was read leaves an empty slice file cut short.
            let number = admit(&file, &[]).expect_err("no slice");
            assert_eq!(number == 11, files.contains(&file), "{bytes:?}");
            let last = if number == 11 { 20 } else { number };
            assert_eq!(longest(&file, &mut []), Err(last), "{bytes:?}");
            read += usize::from(number == 11);
        });
        assert_eq!(read, files.len());
    }
}

#[test]
fn exactly_the_slices_are_admitted() {
    for stream in [1, 3, 5].into_iter().flat_map(every_type) {
        let stream_file = type_file(&stream);
        let slices: HashMap<Vec<u8>, bool> = every_slice(&stream)
            .iter()
            .map(|slice| (slice_file(slice), slice.is_complete()))
            .collect();
        for length in 0..=4 {
            every_string(length, 12, |bytes| {
                let file = section(bytes);
                let known = slices.get(&file).copied();
                let admitted = is_complete(&stream_file, &file).ok();
                if known.is_some() || bytes.iter().all(|byte| *byte != 4) {
                    assert_eq!(admitted, known, "{stream:?} {bytes:?}");
                }
            });
        }
        for (file, complete) in &slices {
            assert_eq!(is_complete(&stream_file, file), Ok(*complete));
        }
    }
}

/// The number for a slice section, by trying: the first byte after which no
/// slice goes on gives 12 or 14, a prefix of one 11, one with more behind 13.
fn number_by_trying(slices: &[Vec<u8>], section: &[u8]) -> Option<u32> {
    if slices.iter().any(|slice| slice == section) {
        return None;
    }
    if slices.iter().any(|slice| slice.starts_with(section)) {
        return Some(11);
    }
    if slices.iter().any(|slice| section.starts_with(slice)) {
        return Some(13);
    }
    let goes_on = |length: &usize| {
        let start = &section[..*length];
        slices.iter().any(|slice| slice.starts_with(start))
    };
    let fault = (0..section.len()).rev().find(goes_on)?;
    Some(if section[fault] > 10 { 12 } else { 14 })
}

/// Calls with every string of bytes below 12 that goes on at most so many bytes
/// past where some slice would.
fn every_string_near(
    slices: &[Vec<u8>],
    bytes: &mut Vec<u8>,
    past: usize,
    call: &mut impl FnMut(&[u8]),
) {
    call(bytes);
    let goes_on = slices.iter().any(|slice| slice.starts_with(bytes));
    let past = if goes_on { past } else { past - 1 };
    if past == 0 {
        return;
    }
    for byte in 0..12 {
        bytes.push(byte);
        every_string_near(slices, bytes, past, call);
        bytes.pop();
    }
}

#[test]
fn the_first_fault_of_a_slice_by_trying() {
    let mut seen = HashMap::new();
    // Levels are left out: the values listed for them are not all there are.
    let no_level = |stream: &Type| !type_file(stream)[2..].contains(&2);
    for stream in [1, 3, 5].into_iter().flat_map(every_type).filter(no_level) {
        let stream_file = type_file(&stream);
        let slices: Vec<Vec<u8>> = every_slice(&stream)
            .iter()
            .map(|slice| slice_file(slice)[2..].to_vec())
            .collect();
        every_string_near(&slices, &mut Vec::new(), 2, &mut |bytes| {
            let number = admit(&stream_file, &section(bytes)).err();
            let expected = number_by_trying(&slices, bytes);
            assert_eq!(number, expected, "{stream:?} {bytes:?}");
            *seen.entry(number).or_insert(0) += 1;
        });
    }
    for number in [None, Some(11), Some(12), Some(13), Some(14)] {
        assert!(seen.contains_key(&number), "{number:?} never came");
    }
}
