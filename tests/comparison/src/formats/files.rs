//! Files as bytes. A section is a count of two bytes, the high byte first, and then its contents.

use second_interpreter::Totals;

use crate::formats::totals::totals_section;

/// The length of the longest type file that is accepted.
pub const LONGEST_TYPE_FILE: usize = 257;
/// That of the longest slice file.
pub const LONGEST_SLICE_FILE: usize = 513;
/// That of the longest patch file.
pub const LONGEST_PATCH_FILE: usize = 8_492;

/// The most cues and levels that come in one slice: the leaves of a type of 255 nodes.
pub const MOST_ARRIVALS: u32 = 128;

/// The file of one section. Its contents have at most 65,535 bytes.
pub fn section(contents: &[u8]) -> Vec<u8> {
    let mut file = vec![0, 0];
    file.extend_from_slice(contents);
    set_count(&mut file, contents.len());
    file
}

/// The file of a patch that was never fed: the tree of its input type, its nodes, and totals of 0.
pub fn patch(tree: &[u8], nodes: &[u8]) -> Vec<u8> {
    patch_with_totals(tree, nodes, Totals::default())
}

/// The file of a patch: the tree of its input type, its nodes, and its totals.
pub fn patch_with_totals(tree: &[u8], nodes: &[u8], totals: Totals) -> Vec<u8> {
    [section(tree), section(nodes), totals_section(totals)].concat()
}

/// What the count of a file says; 0 where there is no whole count.
pub fn count(file: &[u8]) -> usize {
    match file {
        [high, low, ..] => usize::from(*high) * 256 + usize::from(*low),
        _ => 0,
    }
}

/// The contents of a file's first section; as much of them as there is.
pub fn contents(file: &[u8]) -> &[u8] {
    let end = file.len().min(2 + count(file));
    file.get(2..end).unwrap_or(&[])
}

/// Where a file's first section ends, if it is whole.
fn section_end(file: &[u8]) -> Option<usize> {
    let end = 2 + count(file);
    (2..=file.len()).contains(&end).then_some(end)
}

/// Where the nodes of a patch file end, if its first two sections are whole. Its totals are behind.
pub fn nodes_end(patch: &[u8]) -> Option<usize> {
    let type_end = section_end(patch)?;
    Some(type_end + section_end(&patch[type_end..])?)
}

/// Overwrites the count, if the file has one.
pub fn set_count(file: &mut [u8], count: usize) {
    let count = count.min(65_535);
    if let [high, low, ..] = file {
        *high = (count / 256) as u8;
        *low = (count % 256) as u8;
    }
}

/// The bytes in decimal. A long run of one byte is shown as `{times: byte}`.
pub fn decimal(bytes: &[u8]) -> String {
    let words: Vec<String> = bytes
        .chunk_by(|before, after| before == after)
        .flat_map(|run| {
            if run.len() > 8 {
                vec![format!("{{{}: {}}}", run.len(), run[0])]
            } else {
                vec![run[0].to_string(); run.len()]
            }
        })
        .collect();
    words.join(" ")
}
