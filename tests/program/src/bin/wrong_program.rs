//! Programs that are wrong in one way, to see that the streams find it: `wrong_program FAULT`.
//! Without a fault it is right.

use std::fs::File;
use std::io::{self, Read, Write};
use std::os::fd::AsFd;
use std::os::unix::fs::FileTypeExt;

use comparison::formats::fault;
use comparison::formats::files::{
    contents, count, nodes_end, LONGEST_PATCH_FILE, LONGEST_SLICE_FILE, LONGEST_TYPE_FILE,
};
use comparison::formats::kinds::slice_kind::{FIRST_CHOSEN, NONE_CHOSEN, NOTHING, SECOND_CHOSEN};
use comparison::formats::preorder::{arrivals, choices, slice_roots};
use comparison::formats::totals::{totals_in, totals_section, with_totals};
use comparison::other_rules::Rule;
use second_interpreter::{check, feed, Totals};

/// A buffer of this size is what faults of reading and writing are about.
const READ: usize = 65_536;

/// The slice file with another kind in place of each node of this kind.
fn with_other_kind(file: &[u8], kind: u8, other: u8) -> Vec<u8> {
    let mut changed = file.to_vec();
    for at in slice_roots(contents(file)) {
        if file[2 + at] == kind {
            changed[2 + at] = other;
        }
    }
    changed
}

fn main() -> io::Result<()> {
    let mut wrong = Wrong {
        fault: std::env::args().nth(1).unwrap_or_default(),
        // Not buffered: how much a read brings is part of some faults.
        input: File::from(io::stdin().as_fd().try_clone_to_owned()?),
        output: io::stdout(),
        taken: 0,
        chunk: Vec::new(),
        printed: Vec::new(),
        written: 0,
    };
    wrong.run()?;
    wrong.finish()
}

struct Wrong {
    fault: String,
    input: File,
    output: io::Stdout,
    /// How many bytes were read.
    taken: usize,
    /// What was read and not yet used, for the fault that needs it.
    chunk: Vec<u8>,
    /// What is held back.
    printed: Vec<u8>,
    /// How many bytes were written.
    written: usize,
}

impl Wrong {
    fn is(&self, fault: &str) -> bool {
        self.fault == fault
    }

    fn run(&mut self) -> io::Result<()> {
        let pipe = self.input.metadata()?.file_type().is_fifo();
        if self.is("pipes_only") && !pipe || self.is("files_only") && pipe {
            return Ok(());
        }
        let Some(start) = self.file()? else {
            if self.is("nothing_prints") && self.taken == 0 {
                self.line("1")?;
            }
            return Ok(());
        };
        let start = self.with_other_totals(start);
        let checked = check(&start, &mut [0; LONGEST_TYPE_FILE]);
        let ignored = self.is("differing_outputs_pass") && checked == Err(fault::OUTPUTS_DIFFER);
        if let Some(number) = checked.err().filter(|_| !ignored) {
            self.line(&number.to_string())?;
            return self.after_refused_patch();
        }
        if self.is("accepted_patch_prints_0") {
            self.line("0")?;
        }
        self.feed_slices(&start)
    }

    fn feed_slices(&mut self, start: &[u8]) -> io::Result<()> {
        let mut patch = start.to_vec();
        while let Some(slice) = self.file()? {
            match self.fed(&patch, &slice) {
                Ok((line, left)) => {
                    self.line(&line)?;
                    if self.is("totals_lost_between_slices") {
                        patch = with_totals(&left, totals_in(start).unwrap_or_default())
                            .unwrap_or(left);
                    } else if !self.keeps_patch(&slice) {
                        patch = left;
                    }
                }
                Err(number) => {
                    self.line(&number.to_string())?;
                    match self.fault.as_str() {
                        "refused_slice_stops" => return Ok(()),
                        "passed_total_stops" if number == fault::TOTAL_TOO_LARGE => return Ok(()),
                        "refused_slice_starts_anew" => patch = start.to_vec(),
                        "refused_slice_clears_patch" => patch.fill(0),
                        _ => {}
                    }
                }
            }
        }
        Ok(())
    }

    /// The patch at the start, as some faults see it.
    fn with_other_totals(&self, start: Vec<u8>) -> Vec<u8> {
        match self.fault.as_str() {
            "totals_begin_at_0" => with_totals(&start, Totals::default()).unwrap_or(start),
            "two_sections_pass" if nodes_end(&start) == Some(start.len()) => {
                [start, totals_section(Totals::default())].concat()
            }
            // It is refused as one with bytes left over.
            "totals_have_to_be_0"
                if totals_in(&start).is_some_and(|totals| totals != Totals::default()) =>
            {
                [start, vec![0]].concat()
            }
            _ => start,
        }
    }

    /// Whether the patch stays though the slice was accepted.
    fn keeps_patch(&self, slice: &[u8]) -> bool {
        self.is("patch_never_replaced")
            || self.is("choice_keeps_patch") && choices(contents(slice)) > 0
    }

    fn after_refused_patch(&mut self) -> io::Result<()> {
        match self.fault.as_str() {
            "refused_patch_goes_on" => self.run(),
            "refused_patch_feeds_on" => {
                while self.file()?.is_some() {
                    self.line("1")?;
                }
                Ok(())
            }
            "refused_patch_reads_on" => io::copy(&mut self.input, &mut io::sink()).map(|_| ()),
            "refused_patch_is_an_error" => std::process::exit(1),
            _ => Ok(()),
        }
    }

    /// The output file of a feed, and the patch left.
    fn written(&self, patch: &[u8], slice: &[u8]) -> Result<[Vec<u8>; 2], u32> {
        let (mut output, mut left) = (vec![0; LONGEST_SLICE_FILE], vec![0; LONGEST_PATCH_FILE]);
        let fed = feed(patch, slice, &mut output, &mut left)?;
        let short = self.is("output_buffer_of_512") && fed.output > 512
            || self.is("patch_buffer_of_8482") && fed.patch > 8_482
            || self.is("patch_buffer_of_8491") && fed.patch > 8_491;
        if short {
            return Err(fault::NO_ROOM);
        }
        if let Some(rule) = Rule::wrong(&self.fault) {
            return rule.feed(patch, slice).ok_or(fault::SLICE_MISPLACED);
        }
        output.truncate(fed.output);
        left.truncate(fed.patch);
        Ok([output, left])
    }

    /// The line of a feed, and the patch left.
    fn fed(&self, patch: &[u8], slice: &[u8]) -> Result<(String, Vec<u8>), u32> {
        let slice = if self.is("second_choice_fed_as_first") {
            &with_other_kind(slice, SECOND_CHOSEN, FIRST_CHOSEN)
        } else {
            slice
        };
        let [sent, left] = self.written(patch, slice)?;
        let printed = if self.is("type_before_printed") {
            patch
        } else {
            &left
        };
        let counts = match self.fault.as_str() {
            "arrivals_printed" => {
                let [arrived, sent] = [slice, &sent].map(|file| arrivals(contents(file)));
                format!(" {arrived} {sent}")
            }
            "totals_printed" => {
                let totals = totals_in(&left).unwrap_or_default();
                format!(" {} {}", totals.arrived, totals.sent)
            }
            _ => String::new(),
        };
        let sent = self.field(&match self.fault.as_str() {
            "second_marked_as_first" => with_other_kind(&sent, SECOND_CHOSEN, FIRST_CHOSEN),
            "none_chosen_sends_nothing" => with_other_kind(&sent, NONE_CHOSEN, NOTHING),
            _ => sent,
        });
        let rest = self.field(&printed[..2 + count(printed)]);
        Ok((format!("0 {sent} {rest}{counts}"), left))
    }

    /// A file in hexadecimal, without its count.
    fn field(&self, file: &[u8]) -> String {
        let bytes = if self.is("counts_printed") {
            file
        } else {
            &file[2..]
        };
        let text: String = bytes.iter().map(|byte| format!("{byte:02x}")).collect();
        match self.fault.as_str() {
            "upper_case" => text.to_uppercase(),
            "one_digit_below_16" => bytes.iter().map(|byte| format!("{byte:x}")).collect(),
            _ => text,
        }
    }

    fn line(&mut self, line: &str) -> io::Result<()> {
        let mut text = format!("{line}\n").into_bytes();
        match self.fault.as_str() {
            "line_buffer_of_1535" => text.truncate(1_535),
            "line_buffer_of_1024" => text.truncate(1_024),
            "space_at_the_end" => text.insert(text.len() - 1, b' '),
            "carriage_return" => text.insert(text.len() - 1, b'\r'),
            "speaks_on_standard_error" => eprintln!("{line}"),
            "no_last_line_feed" => {
                self.printed.extend(text);
                let keep = self.printed.len() - 1;
                text = self.printed.drain(..keep).collect();
            }
            "lines_at_the_end" => {
                self.printed.extend(text);
                return Ok(());
            }
            "first_64_kib_of_output" => text.truncate(READ.saturating_sub(self.written)),
            _ => {}
        }
        self.written += text.len();
        self.output.write_all(&text)?;
        self.output.flush()
    }

    fn finish(&mut self) -> io::Result<()> {
        if self.is("lines_at_the_end") {
            self.output.write_all(&self.printed)?;
        }
        self.output.flush()?;
        if self.is("does_not_end") {
            std::thread::sleep(std::time::Duration::from_secs(3_600));
        }
        Ok(())
    }

    /// The next file, if all of it is there.
    fn file(&mut self) -> io::Result<Option<Vec<u8>>> {
        if self.is("lost_when_across_a_read") {
            return self.file_in_one_read();
        }
        let head = self.bytes(2)?;
        if head.len() < 2 {
            return Ok(if head.len() == 1 && self.is("cut_length_prints") {
                Some(head)
            } else {
                None
            });
        }
        let asked = match self.fault.as_str() {
            "low_byte_first" => count(&[head[1], head[0]]),
            "signed_length" if head[0] >= 128 => 0,
            "long_file_not_skipped" => count(&head).min(LONGEST_PATCH_FILE),
            _ => count(&head),
        };
        if self.stops_at_64_kib(asked) {
            return Ok(None);
        }
        let mut file = self.bytes(asked)?;
        if file.len() < asked && !self.is("cut_file_prints")
            || asked == 0 && self.is("empty_file_ends")
        {
            return Ok(None);
        }
        match self.fault.as_str() {
            "files_of_513" => file.truncate(513),
            "files_of_8482" => file.truncate(8_482),
            "files_of_8492" => file.truncate(8_492),
            "files_of_32767" => file.truncate(32_767),
            "files_of_65534" => file.truncate(65_534),
            _ => {}
        }
        Ok(Some(file))
    }

    /// Whether the file at hand, whose length was just read, lies about a multiple of 64 KiB in a
    /// way that a buffer of that size might not bear.
    fn stops_at_64_kib(&self, asked: usize) -> bool {
        let behind = self.taken % READ;
        match self.fault.as_str() {
            "contents_across_64_kib" => behind > 0 && behind + asked > READ,
            "contents_at_64_kib" => behind == 0,
            "length_across_64_kib" => behind == 1,
            "file_at_64_kib" => behind == 2 && self.taken > 2,
            "first_mib_of_input" => self.taken > 1 << 20,
            _ => false,
        }
    }

    /// As many bytes, or as many as there are.
    fn bytes(&mut self, asked: usize) -> io::Result<Vec<u8>> {
        let mut bytes = vec![0; asked];
        let mut have = 0;
        while have < asked {
            let mut most = asked - have;
            if self.is("first_64_kib_of_input") {
                most = most.min(READ - self.taken);
            }
            let read = self.input.read(&mut bytes[have..have + most])?;
            self.taken += read;
            have += read;
            if read == 0 || self.is("one_read_is_enough") {
                break;
            }
        }
        bytes.truncate(have);
        Ok(bytes)
    }

    /// A file that lies in what one read brought; what is left of the read before it is lost.
    fn file_in_one_read(&mut self) -> io::Result<Option<Vec<u8>>> {
        loop {
            let asked = count(&self.chunk);
            if self.chunk.len() >= 2 + asked && self.chunk.len() >= 2 {
                let file = self.chunk[2..2 + asked].to_vec();
                self.chunk.drain(..2 + asked);
                return Ok(Some(file));
            }
            self.chunk = vec![0; READ];
            let read = self.input.read(&mut self.chunk)?;
            self.chunk.truncate(read);
            if read == 0 {
                return Ok(None);
            }
        }
    }
}
