//! The table.

use comparison::Operation;

use crate::measured::{in_median, median, Cost, Measured};
use crate::rows::Row;

/// A line of the table: the call, and what each column has.
fn line(call: &str, columns: [&str; 9]) -> String {
    const WIDTHS: [usize; 9] = [9, 11, 11, 8, 9, 11, 11, 12, 8];
    let mut text = format!("{call:<58}");
    for (column, width) in columns.into_iter().zip(WIDTHS) {
        text += &format!("{column:>width$}");
    }
    text
}

/// A number with so many digits behind the point, or a dash.
fn number(value: Option<f64>, digits: usize) -> String {
    value.map_or("-".to_string(), |value| format!("{value:.digits$}"))
}

fn row_line(runs: &[Vec<Measured>], row: usize) -> String {
    let one = &runs[0][row];
    let call = format!("{:<8}{}", format!("{:?}", one.row.operation), one.row.name);
    let middle = |figure, digits| number(in_median(runs, row, figure), digits);
    let columns = [
        one.row.input_bytes().to_string(),
        middle(|one| one.library(Cost::Time), 1),
        middle(|one| one.second(Cost::Time), 1),
        middle(|one| one.ratio(Cost::Time), 1),
        middle(|one| one.per_byte(Cost::Time), 2),
        middle(|one| one.library(Cost::Instructions), 0),
        middle(|one| one.second(Cost::Instructions), 0),
        middle(|one| one.per_byte(Cost::Instructions), 1),
        middle(|one| one.times_memcpy(), 1),
    ];
    line(&call, columns.each_ref().map(String::as_str))
}

/// The lines above the rows.
pub fn heading(runs: usize) -> String {
    let columns = line(
        "",
        [
            "bytes", "library", "second", "times", "library", "library", "second", "library",
            "times",
        ],
    );
    let units = line(
        "call",
        [
            "handed in",
            "ns",
            "ns",
            "as fast",
            "ns/byte",
            "instr.",
            "instr.",
            "instr./byte",
            "memcpy",
        ],
    );
    format!(
        "The library beside the second interpreter, which keeps trees on the heap. A time is that\n\
         of the fastest of several rounds, after warming. Every figure is the median of {runs}\n\
         runs. Lent buffers are not cleared between calls. Where half has come, the second slice\n\
         of Join is the other half.\n\n\
         {columns}\n{units}"
    )
}

/// The lines of all rows, with an empty line between the groups.
pub fn lines(runs: &[Vec<Measured>]) -> String {
    let mut text = String::new();
    for (index, one) in runs[0].iter().enumerate() {
        let before = index.checked_sub(1).map(|before| runs[0][before].row);
        if before.is_some_and(|before| is_apart(before, one.row)) {
            text.push('\n');
        }
        text += &row_line(runs, index);
        text.push('\n');
    }
    text
}

fn is_apart(before: &Row, row: &Row) -> bool {
    let same_group = std::mem::discriminant(&before.group) == std::mem::discriminant(&row.group);
    !same_group || before.operation != row.operation
}

/// The median of a figure over the rows of Feed.
fn of_feed(runs: &[Vec<Measured>], figure: fn(&Measured) -> Option<f64>) -> Option<f64> {
    let is_fed = |row: &usize| runs[0][*row].row.operation == Operation::Feed;
    let fed = (0..runs[0].len()).filter(is_fed);
    median(fed.filter_map(|row| in_median(runs, row, figure)))
}

/// The lines below the rows: which bytes are counted, and what a byte costs Feed.
pub fn below(runs: &[Vec<Measured>]) -> String {
    format!(
        "Bytes: those of all files handed in, which an accepted call reads; not those it writes.\n\
         Times memcpy: as long as one memcpy of as many bytes, timed in the same run.\n\
         Median over the accepted rows of Feed: {} instructions a byte, {} times memcpy.\n",
        number(of_feed(runs, |one| one.per_byte(Cost::Instructions)), 1),
        number(of_feed(runs, |one| one.times_memcpy()), 1),
    )
}
