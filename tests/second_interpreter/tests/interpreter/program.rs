//! The program: its lines, and where it stops.

use std::io::{self, ErrorKind, Read, Write};

use crate::common::{patch, section};
use second_interpreter::run_program;

/// What the program writes for a stream.
fn lines(mut input: &[u8]) -> String {
    let mut output = Vec::new();
    run_program(&mut input, &mut output).expect("memory does not fail");
    String::from_utf8(output).expect("lines are text")
}

/// Files, each after its two-byte length.
fn stream(files: &[Vec<u8>]) -> Vec<u8> {
    files.iter().flat_map(|file| section(file)).collect()
}

#[test]
fn refused_slices_leave_the_patch() {
    let input = stream(&[
        patch(&[1], &[10, 14, 9, 2, 0]),
        section(&[3]),
        section(&[1]),
        vec![],
        section(&[11]),
        section(&[2, 2]),
        section(&[2]),
        section(&[2]),
        section(&[0]),
    ]);
    assert_eq!(
        lines(&input),
        "14\n0 060201 01\n11\n12\n13\n0 02 00\n14\n0 00 00\n"
    );
}

#[test]
fn lamps_wait_while_the_house_fills() {
    let mut files = vec![patch(&[1], &[4, 2, 3, 0, 7])];
    files.extend(vec![section(&[1]); 3]);
    files.extend([section(&[2]), section(&[0])]);
    assert_eq!(
        lines(&stream(&files)),
        "0 070103 01\n0 070103 01\n0 070103 01\n0 0702040007 00\n0 070000 00\n"
    );
}

#[test]
fn counts_are_on_no_line() {
    // Two arrive and three are sent; neither M-104 nor M-105 gives the program more to
    // print.
    let input = stream(&[
        patch(&[3, 1, 4, 1, 1], &[13]),
        section(&[6, 2, 7, 2, 1]),
        section(&[7, 0, 2]),
    ]);
    assert_eq!(lines(&input), "0 07060202060201 040001\n0 070002 040000\n");
}

#[test]
fn refused_patch_stops() {
    let bad = [
        (vec![], "1\n"),
        (patch(&[9], &[0]), "2\n"),
        (patch(&[1, 1], &[0]), "3\n"),
        (patch(&[3; 255], &[0]), "4\n"),
        (patch(&[1], &[10; 63]), "5\n"),
        (patch(&[1], &[1, 1]), "6\n"),
        (patch(&[1], &[5]), "7\n"),
        (patch(&[5, 1, 2], &[15, 0, 0]), "30\n"),
    ];
    for (file, line) in bad {
        assert_eq!(lines(&stream(&[file, section(&[1])])), line);
    }
}

#[test]
fn accepted_patch_alone_prints_nothing() {
    assert_eq!(lines(&stream(&[patch(&[1], &[0])])), "");
}

#[test]
fn every_end_of_the_stream() {
    let files = [patch(&[1], &[0]), section(&[1]), section(&[2])];
    let whole = stream(&files);
    let after_first = stream(&files[..2]).len();
    for end in 0..=whole.len() {
        let expected = if end == whole.len() {
            "0 01 01\n0 02 00\n"
        } else if end >= after_first {
            "0 01 01\n"
        } else {
            ""
        };
        assert_eq!(lines(&whole[..end]), expected, "ended at {end}");
    }
    // A refused patch that is not whole gives no line.
    let bad = stream(&[patch(&[9], &[0])]);
    assert_eq!(lines(&bad), "2\n");
    assert_eq!(lines(&bad[..bad.len() - 1]), "");
}

#[test]
fn hexadecimal_is_lower_case_with_two_digits() {
    let input = stream(&[
        patch(&[4, 2, 2], &[0]),
        section(&[7, 4, 0xAB, 0x0C, 4, 0, 0xFF]),
    ]);
    assert_eq!(lines(&input), "0 0704ab0c0400ff 040000\n");
}

#[test]
fn longest_length_of_a_file() {
    let mut input = stream(&[patch(&[1], &[0])]);
    input.extend([255, 255]);
    input.extend([0, 1, 2]);
    input.extend(vec![0; 65_532]);
    input.extend(section(&section(&[2])));
    assert_eq!(lines(&input), "13\n0 02 00\n");
}

/// Gives a byte at a time, with interruptions between.
struct Halting<'a> {
    rest: &'a [u8],
    interrupted: bool,
}

impl Read for Halting<'_> {
    fn read(&mut self, buffer: &mut [u8]) -> io::Result<usize> {
        self.interrupted = !self.interrupted;
        if self.interrupted {
            return Err(ErrorKind::Interrupted.into());
        }
        let count = buffer.len().min(1);
        self.rest.read(&mut buffer[..count])
    }
}

#[test]
fn slow_streams_are_no_ends() {
    let input = stream(&[patch(&[1], &[0]), section(&[1]), section(&[2])]);
    let mut halting = Halting {
        rest: &input,
        interrupted: false,
    };
    let mut output = Vec::new();
    run_program(&mut halting, &mut output).expect("interruptions are taken up again");
    assert_eq!(output, b"0 01 01\n0 02 00\n");
}

/// Reads or writes nothing.
struct Broken;

impl Read for Broken {
    fn read(&mut self, _: &mut [u8]) -> io::Result<usize> {
        Err(ErrorKind::BrokenPipe.into())
    }
}

impl Write for Broken {
    fn write(&mut self, _: &[u8]) -> io::Result<usize> {
        Err(ErrorKind::BrokenPipe.into())
    }

    fn flush(&mut self) -> io::Result<()> {
        Ok(())
    }
}

#[test]
fn failures_of_the_streams_are_reported() {
    assert!(run_program(&mut Broken, &mut Vec::new()).is_err());
    let input = stream(&[patch(&[1], &[5])]);
    assert!(run_program(&mut input.as_slice(), &mut Broken).is_err());
}
