//! The program of document 01: "reads standard input: a two-byte length and a
//! patch file, then slice files, each after such a length, and feeds them in
//! turn".

use std::io::{self, Read, Write};

use crate::numbers::Number;
use crate::operations::{check, feed};

/// The longest type file: a count and 255 bytes.
const LONGEST_TYPE_FILE: usize = 257;
/// "So a slice file has at most 513 bytes."
const LONGEST_SLICE_FILE: usize = 513;
/// The longest file within the bounds: "A patch file may now have 8,492 bytes" (M-105).
const LONGEST_PATCH_FILE: usize = 8_492;

/// The program of document 01: reads the stream, writes the lines.
///
/// # Errors
///
/// Only what reading or writing themselves report; "a stream that ends, between
/// files or inside one, stops it with no further line".
pub fn run_program(input: &mut dyn Read, output: &mut dyn Write) -> io::Result<()> {
    let Some(mut patch) = read_file(input)? else {
        return Ok(());
    };
    if let Err(number) = check(&patch, &mut [0; LONGEST_TYPE_FILE]) {
        // "A refused patch gives its number alone, and the program stops."
        return write_line(output, &number.to_string());
    }
    while let Some(slice) = read_file(input)? {
        match feed_once(&patch, &slice) {
            Ok((line, patch_left)) => {
                write_line(output, &line)?;
                patch = patch_left;
            }
            // "A refused slice leaves the patch."
            Err(number) => write_line(output, &number.to_string())?,
        }
    }
    Ok(())
}

/// One feed: its line and the patch left. "A line per slice: the number, and if
/// 0 the output and the left input type, each the section's bytes in two-digit
/// lower-case hexadecimal, one space between fields." The counts of M-104 and the
/// totals of M-105 are no fields of it.
fn feed_once(patch: &[u8], slice: &[u8]) -> Result<(String, Vec<u8>), Number> {
    let mut output = vec![0; LONGEST_SLICE_FILE];
    let mut patch_left = vec![0; LONGEST_PATCH_FILE];
    let written = feed(patch, slice, &mut output, &mut patch_left)?;
    output.truncate(written.output);
    patch_left.truncate(written.patch);
    let sent = hexadecimal(first_section(&output));
    let input_left = hexadecimal(first_section(&patch_left));
    Ok((format!("0 {sent} {input_left}"), patch_left))
}

/// The bytes of the first section of an accepted file, without its count.
fn first_section(file: &[u8]) -> &[u8] {
    match file {
        [high, low, rest @ ..] => {
            let count = usize::from(u16::from_be_bytes([*high, *low]));
            &rest[..count.min(rest.len())]
        }
        _ => &[],
    }
}

/// Two lower-case digits a byte.
fn hexadecimal(bytes: &[u8]) -> String {
    bytes.iter().map(|byte| format!("{byte:02x}")).collect()
}

/// A two-byte length and that many bytes; `None` if the stream ends first.
fn read_file(input: &mut dyn Read) -> io::Result<Option<Vec<u8>>> {
    let Some(length) = read_bytes(input, 2)? else {
        return Ok(None);
    };
    let length = length
        .iter()
        .fold(0, |sum, byte| sum * 256 + u64::from(*byte));
    read_bytes(input, length)
}

/// Exactly so many bytes; `None` if the stream ends first.
fn read_bytes(input: &mut dyn Read, count: u64) -> io::Result<Option<Vec<u8>>> {
    let mut bytes = Vec::new();
    let read = input.take(count).read_to_end(&mut bytes)?;
    Ok((read as u64 == count).then_some(bytes))
}

/// A line, sent on at once: a caller may wait for it before the next slice.
fn write_line(output: &mut dyn Write, line: &str) -> io::Result<()> {
    writeln!(output, "{line}")?;
    output.flush()
}
