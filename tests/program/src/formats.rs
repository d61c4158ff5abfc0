//! What the program reads and writes, as bytes. A stream is a patch file and then slice files, each
//! after its length of two bytes; the lines are one for each slice.

use comparison::formats::fault;
use comparison::formats::files::{count, section};

/// A length of two bytes says at most so much.
pub const LONGEST_FILE: usize = 65_535;

/// The stream of these files. What a length and a file look like is what a section looks like.
pub fn stream(files: &[Vec<u8>]) -> Vec<u8> {
    files.iter().flat_map(|file| section(file)).collect()
}

/// A stream, taken apart.
#[derive(Clone, Debug, Default)]
pub struct Parts<'a> {
    /// The whole files, and where the length of each is.
    pub files: Vec<(usize, &'a [u8])>,
    /// What is behind them: nothing, or a length or a file that is cut.
    pub rest: &'a [u8],
}

impl<'a> Parts<'a> {
    /// The parts of a stream.
    pub fn new(stream: &'a [u8]) -> Self {
        let mut files = Vec::new();
        let mut at = 0;
        while let Some(file) = whole_file(&stream[at..]) {
            files.push((at, file));
            at += 2 + file.len();
        }
        Parts {
            files,
            rest: &stream[at..],
        }
    }
}

/// The file that begins here, if all of it is there.
fn whole_file(stream: &[u8]) -> Option<&[u8]> {
    match stream {
        [_, _, behind @ ..] => behind.get(..count(stream)),
        _ => None,
    }
}

/// Where each line ends, its line feed included.
pub fn line_ends(output: &[u8]) -> Vec<usize> {
    (1..=output.len())
        .filter(|end| output[end - 1] == b'\n')
        .collect()
}

/// What the second interpreter's program writes for a stream.
pub fn expected(mut stream: &[u8]) -> Vec<u8> {
    let mut output = Vec::new();
    second_interpreter::run_program(&mut stream, &mut output).expect("memory does not fail");
    output
}

/// The numbers of refused patches.
pub const PATCH_NUMBERS: [u32; 8] = [
    fault::CUT_SHORT,
    fault::UNLISTED,
    fault::LEFT_OVER,
    fault::TYPE_TOO_LARGE,
    fault::TOO_MANY_NODES,
    fault::NOT_NULLABLE,
    fault::WRONG_SHAPE,
    fault::OUTPUTS_DIFFER,
];

/// Whether these lines are those of a refused patch: its number, which no slice has, and no more.
pub fn refuses_patch(output: &[u8]) -> bool {
    let mut numbers = PATCH_NUMBERS.iter();
    numbers.any(|number| output == format!("{number}\n").as_bytes())
}
