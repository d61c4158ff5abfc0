//! Files by hand: sections with their counts, and calls with long buffers. What a call
//! counts, and what it adds to the totals, is held against the bytes of the files, in
//! every test that calls it so.

use second_interpreter::{admit, feed, totals_of, Number, Totals};

/// A section: a two-byte count and these bytes.
pub fn section(contents: &[u8]) -> Vec<u8> {
    let count = u16::try_from(contents.len()).expect("a test section is short");
    let mut bytes = count.to_be_bytes().to_vec();
    bytes.extend_from_slice(contents);
    bytes
}

/// The bytes of a section of totals, with its count.
pub const TOTALS_SECTION: usize = 10;

/// A patch file: a type section, a node section, and totals of zero.
pub fn patch(stream: &[u8], nodes: &[u8]) -> Vec<u8> {
    patch_with(stream, nodes, Totals::default())
}

/// A patch file of these sections and totals.
pub fn patch_with(stream: &[u8], nodes: &[u8], totals: Totals) -> Vec<u8> {
    let mut file = without_totals(stream, nodes);
    file.extend(section(&bytes_of(totals)));
    file
}

/// The first two sections of a patch file, a whole one until M-105.
pub fn without_totals(stream: &[u8], nodes: &[u8]) -> Vec<u8> {
    [section(stream), section(nodes)].concat()
}

/// The eight bytes of totals, made by division.
pub fn bytes_of(totals: Totals) -> Vec<u8> {
    let byte = |total: u32, unit: u32| (total / unit % 256) as u8;
    let four = |total: u32| [1 << 24, 1 << 16, 256, 1].map(|unit| byte(total, unit));
    [four(totals.arrived), four(totals.sent)].concat()
}

/// The same patch file with totals of zero, and the totals that it had, from its last
/// eight bytes.
pub fn cleared(mut file: Vec<u8>) -> (Vec<u8>, Totals) {
    let place = file.len() - 8;
    let four = |from: usize| {
        let bytes = file[from..from + 4].iter();
        bytes.fold(0, |total, byte| total * 256 + u32::from(*byte))
    };
    let totals = Totals {
        arrived: four(place),
        sent: four(place + 4),
    };
    file[place..].fill(0);
    (file, totals)
}

/// The cues and levels come in a slice file, from its bytes alone: the kinds 2 and 4,
/// the two bytes behind a 4 being its value and no kinds.
pub fn come_in(slice: &[u8]) -> u32 {
    let mut bytes = slice[2..].iter();
    let mut come = 0;
    while let Some(kind) = bytes.next() {
        if *kind == 4 {
            bytes.nth(1).expect("a value of two bytes");
        }
        come += u32::from([2, 4].contains(kind));
    }
    come
}

/// Admits a slice: whether it is complete.
pub fn is_complete(stream: &[u8], slice: &[u8]) -> Result<bool, Number> {
    let admitted = admit(stream, slice)?;
    assert_eq!(admitted.arrived, come_in(slice), "{slice:?}");
    Ok(admitted.complete)
}

/// What a feed with long buffers gives: the files written, and the two counts.
#[derive(Debug, PartialEq, Eq)]
pub struct Given {
    /// The output slice file.
    pub output: Vec<u8>,
    /// The patch file left.
    pub left: Vec<u8>,
    /// The cues and levels come in the slice.
    pub arrived: u32,
    /// The cues and levels come in the output.
    pub sent: u32,
}

/// Feeds with long buffers: the files written, and the two counts.
pub fn fed_and_counted(patch: &[u8], slice: &[u8]) -> Result<Given, Number> {
    let mut output = vec![0xEE; 1_000];
    let mut left = vec![0xEE; 10_000];
    let answer = feed(patch, slice, &mut output, &mut left)?;
    assert!(output[answer.output..].iter().all(|byte| *byte == 0xEE));
    assert!(left[answer.patch..].iter().all(|byte| *byte == 0xEE));
    output.truncate(answer.output);
    left.truncate(answer.patch);
    assert_eq!(answer.arrived, come_in(slice), "{patch:?} {slice:?}");
    assert_eq!(answer.sent, come_in(&output), "{patch:?} {slice:?}");
    let (_, before) = cleared(patch.to_vec());
    let after = Totals {
        arrived: before.arrived + answer.arrived,
        sent: before.sent + answer.sent,
    };
    assert_eq!(cleared(left.clone()).1, after, "{patch:?} {slice:?}");
    assert_eq!(totals_of(&left), Some(after), "{patch:?} {slice:?}");
    Ok(Given {
        output,
        left,
        arrived: answer.arrived,
        sent: answer.sent,
    })
}

/// Feeds with long buffers: the files written, the patch with its totals at zero, for
/// tests of what the nodes do. The totals have been held against the counts by then.
pub fn fed(patch: &[u8], slice: &[u8]) -> Result<(Vec<u8>, Vec<u8>), Number> {
    let given = fed_and_counted(patch, slice)?;
    Ok((given.output, cleared(given.left).0))
}

/// Calls an operation with a long buffer: the file written.
pub fn answered(
    operation: impl FnOnce(&mut [u8]) -> Result<usize, Number>,
) -> Result<Vec<u8>, Number> {
    let mut buffer = vec![0xEE; 1_000];
    let length = operation(&mut buffer)?;
    assert!(buffer[length..].iter().all(|byte| *byte == 0xEE));
    buffer.truncate(length);
    Ok(buffer)
}
