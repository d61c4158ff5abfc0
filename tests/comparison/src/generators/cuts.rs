//! A slice, cut into pieces that come one after the other: joined they are the slice again.

use second_interpreter::{slice_file, Slice};

use crate::formats::trees::slice_tree;
use crate::generators::random::Random;

/// The files of so many pieces of a slice with this tree. Each but the first is a slice of what the
/// pieces before it leave.
pub fn pieces(random: &mut Random, tree: &[u8], number: usize) -> Vec<Vec<u8>> {
    let mut rest = slice_tree(tree);
    let mut files = Vec::new();
    for behind in (1..number).rev() {
        let share = random.pick(&[0, 50, 100 / (behind + 1), 100 / (behind + 1)]);
        let [piece, next] = Cutter { random, share }.cut(&rest);
        files.push(slice_file(&piece));
        rest = next;
    }
    files.push(slice_file(&rest));
    files
}

/// Cuts slices in two.
struct Cutter<'a> {
    random: &'a mut Random,
    /// The chance, in a hundred, that something comes in the first piece.
    share: usize,
}

impl Cutter<'_> {
    /// The first piece, and what is still to come of the slice.
    fn cut(&mut self, slice: &Slice) -> [Slice; 2] {
        match slice {
            Slice::Empty | Slice::CueNotYet | Slice::LevelNotYet | Slice::NoneChosen => {
                [slice.clone(), slice.clone()]
            }
            Slice::CueCome => self.cut_leaf(slice, Slice::CueNotYet),
            Slice::LevelCome(_) => self.cut_leaf(slice, Slice::LevelNotYet),
            Slice::Uncrossed(part) => self.cut(part).map(Slice::uncrossed),
            Slice::Crossed(first, second) => self.cut_crossing(first, second),
            Slice::Beside(left, right) => {
                let [left, left_rest] = self.cut(left);
                let [right, right_rest] = self.cut(right);
                [
                    Slice::beside(left, right),
                    Slice::beside(left_rest, right_rest),
                ]
            }
            Slice::FirstChosen(part) => self.cut_choice(slice, part, Slice::first_chosen),
            Slice::SecondChosen(part) => self.cut_choice(slice, part, Slice::second_chosen),
        }
    }

    fn comes(&mut self) -> bool {
        self.random.chance(self.share)
    }

    fn cut_leaf(&mut self, come: &Slice, awaited: Slice) -> [Slice; 2] {
        if self.comes() {
            [come.clone(), Slice::Empty]
        } else {
            [awaited, come.clone()]
        }
    }

    /// Before the crossing or behind it.
    fn cut_crossing(&mut self, first: &Slice, second: &Slice) -> [Slice; 2] {
        if self.comes() {
            let [piece, rest] = self.cut(second);
            return [Slice::crossed(first.clone(), piece), rest];
        }
        let [piece, rest] = self.cut(first);
        [
            Slice::uncrossed(piece),
            Slice::crossed(rest, second.clone()),
        ]
    }

    /// Before the choice or behind it.
    fn cut_choice(&mut self, whole: &Slice, part: &Slice, mark: fn(Slice) -> Slice) -> [Slice; 2] {
        if self.comes() {
            let [piece, rest] = self.cut(part);
            return [mark(piece), rest];
        }
        [Slice::NoneChosen, whole.clone()]
    }
}
