//! A call: the operation, its files, and the lengths of the buffers that are lent to it.

use std::fmt;

use crate::calls::comparison::{second_answer, Answer};
use crate::formats::files::{decimal, LONGEST_PATCH_FILE, LONGEST_SLICE_FILE, LONGEST_TYPE_FILE};

/// The operations of the library.
#[derive(Clone, Copy, Debug, PartialEq, Eq)]
pub enum Operation {
    Check,
    Admit,
    Left,
    Join,
    Feed,
    Longest,
}

/// A lent buffer, and the length of its longest answer.
#[derive(Clone, Copy, Debug)]
pub struct Buffer {
    pub name: &'static str,
    pub longest: usize,
}

const TYPE_BUFFER: Buffer = Buffer {
    name: "type buffer",
    longest: LONGEST_TYPE_FILE,
};
const SLICE_BUFFER: Buffer = Buffer {
    name: "slice buffer",
    longest: LONGEST_SLICE_FILE,
};
const PATCH_BUFFER: Buffer = Buffer {
    name: "patch buffer",
    longest: LONGEST_PATCH_FILE,
};

impl Operation {
    /// Every operation, in the order of the table.
    pub const ALL: [Operation; 6] = [
        Operation::Check,
        Operation::Admit,
        Operation::Left,
        Operation::Join,
        Operation::Feed,
        Operation::Longest,
    ];

    /// What its files are called.
    pub fn files(self) -> &'static [&'static str] {
        match self {
            Operation::Check => &["patch"],
            Operation::Admit | Operation::Left => &["type", "slice"],
            Operation::Join => &["type", "first slice", "second slice"],
            Operation::Feed => &["patch", "slice"],
            Operation::Longest => &["type"],
        }
    }

    /// The buffers that are lent to it.
    pub fn buffers(self) -> &'static [Buffer] {
        match self {
            Operation::Check | Operation::Left => &[TYPE_BUFFER],
            Operation::Admit => &[],
            Operation::Join | Operation::Longest => &[SLICE_BUFFER],
            Operation::Feed => &[SLICE_BUFFER, PATCH_BUFFER],
        }
    }

    /// Whether its first file is a patch; of the others it is a type.
    pub fn takes_patch(self) -> bool {
        matches!(self, Operation::Check | Operation::Feed)
    }

    /// Whether it reads a slice.
    pub fn takes_slice(self) -> bool {
        !matches!(self, Operation::Check | Operation::Longest)
    }
}

/// One call: a patch file, or a type file, and up to two slice files; and the lengths of the lent
/// buffers.
#[derive(Clone, Debug)]
pub struct Call {
    pub operation: Operation,
    pub files: Vec<Vec<u8>>,
    pub lent: Vec<usize>,
}

impl Call {
    /// A call with buffers in which every answer fits.
    pub fn roomy(operation: Operation, files: Vec<Vec<u8>>) -> Self {
        let buffers = operation.buffers().iter();
        Call {
            operation,
            files,
            lent: buffers.map(|buffer| buffer.longest).collect(),
        }
    }

    /// How many bytes each answer has, if the files are accepted; else none.
    pub fn needs(&self) -> Vec<usize> {
        let roomy = Call::roomy(self.operation, self.files.clone());
        let answer = roomy.second_outcome().0;
        answer.written[..roomy.lent.len()].to_vec()
    }

    /// What the second interpreter answers, and what it leaves in lent buffers of zeros.
    pub fn second_outcome(&self) -> (Answer, Vec<Vec<u8>>) {
        let mut lent: Vec<Vec<u8>> = self.lent.iter().map(|length| vec![0; *length]).collect();
        let mut buffers: Vec<&mut [u8]> = lent.iter_mut().map(Vec::as_mut_slice).collect();
        let files: Vec<&[u8]> = self.files.iter().map(Vec::as_slice).collect();
        let answer = second_answer(self.operation, &files, &mut buffers);
        (answer, lent)
    }
}

impl fmt::Display for Call {
    fn fmt(&self, out: &mut fmt::Formatter<'_>) -> fmt::Result {
        writeln!(out, "operation {:?}", self.operation)?;
        for (name, file) in self.operation.files().iter().zip(&self.files) {
            writeln!(out, "{name}, {} bytes: {}", file.len(), decimal(file))?;
        }
        write!(out, "lent buffers of these lengths: {:?}", self.lent)
    }
}
