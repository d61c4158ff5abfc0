//! One stream, handed to the program, and all that comes of it held to what has to come.

use comparison::convention::Stop;

use crate::formats::expected;
use crate::running::delivery::Delivery;
use crate::running::process::Program;
use crate::running::report::{difference, shown};
use crate::streams::Case;

/// Runs the program on the stream. Answers the lines, or says what is wrong: a byte of the output,
/// something on standard error, a status other than 0, a line that comes late, no end. A program
/// that cannot be run is no difference.
pub fn hold(program: &Program, case: &Case) -> Result<Vec<u8>, Stop> {
    let expected = expected(&case.stream);
    let ended = case.delivery.run(program, &case.stream, &expected);
    let ended = ended.map_err(Stop::Unusable)?;
    let mut faults = ended.faults;
    faults.extend(difference(&ended.output, &expected));
    if faults.is_empty() {
        return Ok(expected);
    }
    let text = format!("{}\n{}", faults.join("\n"), about(case));
    Err(Stop::Difference(text))
}

/// What the stream was.
fn about(case: &Case) -> String {
    let way = match &case.delivery {
        // The list of pieces would be as long as the stream.
        Delivery::Pieces(lengths) => format!("{} pieces", lengths.len()),
        other => format!("{other:?}"),
    };
    format!(
        "kind: {}\ndelivery: {way}\nstream, {}",
        case.kind,
        shown(&case.stream)
    )
}
