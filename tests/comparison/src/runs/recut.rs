//! The stream of a run, cut anew: neighbouring slices are joined at random and fed.

use crate::calls::asking::{Asking, Fed};
use crate::formats::files::{contents, section};
use crate::generators::random::Random;
use crate::runs::demand::Demand;
use crate::runs::Step;

/// What a new cut was like.
#[derive(Clone, Debug, Default)]
pub struct Anew {
    /// The steps of the run that its feeds begin with.
    pub begins: Vec<usize>,
    /// How many of its feeds brought several slices as one.
    pub joined: usize,
    /// How many of these had arrivals of more than one of them.
    pub summed: usize,
}

/// Feeds the stream of these steps in other slices. Each group sends its outputs, joined, leaves
/// the patch that its last step left and has the sums of its counts; and demand 3 holds of the new
/// cut, whose joined slices and outputs and whose sums are those of the run.
pub fn recut(
    random: &mut Random,
    asking: &mut Asking,
    run: &Demand,
    steps: &[Step],
) -> Result<Anew, String> {
    let mut anew = Anew::default();
    let mut demand = run.anew();
    let mut patch = run.start().to_vec();
    let most = random.pick(&[2, 3, 8, 30]);
    let mut rest = steps;
    while !rest.is_empty() {
        let (group, others) = rest.split_at(random.between(1, most.min(rest.len())));
        let slice = joined_slices(asking, &patch, group)?;
        let fed = asking.feed(&patch, &slice)?;
        if fed != joined_feeds(asking, &patch, group)? {
            return Err("cut anew, the stream sends, leaves or counts something else".to_string());
        }
        demand.after(asking, &slice, &fed)?;
        anew.begins.push(steps.len() - rest.len());
        anew.joined += usize::from(group.len() > 1);
        let arriving = group.iter().filter(|step| step.fed.counts.arrived > 0);
        anew.summed += usize::from(arriving.count() > 1);
        patch = fed.left;
        rest = others;
    }
    run.as_anew(asking, &demand, &patch)?;
    Ok(anew)
}

/// The slices of a group as one, joined against the input type in force.
fn joined_slices(asking: &mut Asking, patch: &[u8], group: &[Step]) -> Result<Vec<u8>, String> {
    let input = section(contents(patch));
    asking.join_all(&input, group.iter().map(|step| step.slice.as_slice()))
}

/// What the group has sent, joined against the output type in force, what its last step left, and
/// the sums of its counts.
fn joined_feeds(asking: &mut Asking, patch: &[u8], group: &[Step]) -> Result<Fed, String> {
    let given = asking.check(patch)?;
    let outputs = group.iter().map(|step| step.fed.output.as_slice());
    Ok(Fed {
        output: asking.join_all(&given, outputs)?,
        left: group[group.len() - 1].fed.left.clone(),
        counts: group.iter().map(|step| step.fed.counts).sum(),
    })
}
