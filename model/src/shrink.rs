//! A smaller case for a difference that was found.

use crate::compare::{run, Call, Case, Engine, Tally};

/// Runs allowed to one shrinking.
const TRIES: usize = 3000;

struct Shrinker<'a> {
    case: Case,
    left: &'a dyn Engine,
    right: &'a dyn Engine,
    tries: usize,
}

/// A smaller case on which the engines still differ.
pub fn shrink(case: Case, left: &dyn Engine, right: &dyn Engine) -> Case {
    let mut shrinker = Shrinker { case, left, right, tries: TRIES };
    loop {
        let before = shrinker.case.clone();
        shrinker.cut_behind();
        shrinker.drop_calls();
        shrinker.drop_areas();
        shrinker.shorten_calls();
        shrinker.blank_image();
        if shrinker.case == before || shrinker.tries == 0 {
            return shrinker.case;
        }
    }
}

impl Shrinker<'_> {
    /// Keeps the smaller case if it still shows a difference.
    fn keep(&mut self, smaller: Case) -> bool {
        if self.tries == 0 || smaller == self.case {
            return false;
        }
        self.tries -= 1;
        let differs = run(&smaller, self.left, self.right, &mut Tally::default()).is_some();
        if differs {
            self.case = smaller;
        }
        differs
    }

    /// Calls behind the differing one tell nothing.
    fn cut_behind(&mut self) {
        if let Some(found) = run(&self.case, self.left, self.right, &mut Tally::default()) {
            self.case.calls.truncate(found.call + 1);
        }
    }

    fn drop_calls(&mut self) {
        for i in (0..self.case.calls.len()).rev() {
            let mut smaller = self.case.clone();
            smaller.calls.remove(i);
            self.keep(smaller);
        }
    }

    fn drop_areas(&mut self) {
        for i in (0..self.case.areas.len() / 2).rev() {
            let mut smaller = self.case.clone();
            smaller.areas.drain(2 * i..2 * i + 2);
            let renumbered = Case { calls: renumbered(&smaller.calls, i), ..smaller.clone() };
            if !self.keep(smaller.clone()) && renumbered != smaller {
                self.keep(renumbered);
            }
        }
    }

    fn shorten_calls(&mut self) {
        for i in 0..self.case.calls.len() {
            for part in PARTS {
                for less in [halve, one_less] {
                    while self.keep(self.with_call(i, part, less)) {}
                }
            }
        }
    }

    fn with_call(&self, i: usize, part: Part, less: Less) -> Case {
        let mut smaller = self.case.clone();
        part(&mut smaller.calls[i], less);
        smaller
    }

    /// Pieces of the image become FF, and its end is cut off.
    fn blank_image(&mut self) {
        let mut piece = self.case.image.len() / 2;
        while piece >= 4 {
            let mut smaller = self.case.clone();
            smaller.image.truncate(smaller.image.len() - piece.min(smaller.image.len()));
            self.keep(smaller);
            for start in (0..self.case.image.len()).step_by(piece) {
                let mut smaller = self.case.clone();
                let end = (start + piece).min(smaller.image.len());
                if start < end {
                    smaller.image[start..end].fill(0xff);
                    self.keep(smaller);
                }
            }
            piece /= 2;
        }
    }
}

/// The calls where an entry of the list is left out: those behind it have other
/// numbers then.
fn renumbered(calls: &[Call], dropped: usize) -> Vec<Call> {
    let mut calls = calls.to_vec();
    for call in &mut calls {
        if let Call::AreaReport { index, .. } = call {
            *index -= u32::from(*index as usize > dropped);
        }
    }
    calls
}

type Less = fn(usize) -> usize;
/// Makes a part of a call less, if it has it.
type Part = fn(&mut Call, Less);
const PARTS: [Part; 4] = [length, offset, index, stretch];

fn length(call: &mut Call, less: Less) {
    match call {
        Call::Append { data: bytes, .. }
        | Call::Overwrite { data: bytes, .. }
        | Call::Damage { bytes, .. } => {
            bytes.truncate(less(bytes.len()));
        }
        Call::Read { length } | Call::ReadAt { length, .. } | Call::Tree { length } => {
            *length = less(*length);
        }
        _ => {}
    }
}

fn offset(call: &mut Call, less: Less) {
    if let Call::Overwrite { offset, .. } = call {
        *offset = less(*offset as usize) as u32;
    }
}

fn index(call: &mut Call, less: Less) {
    if let Call::AreaReport { index, .. } = call {
        *index = less(*index as usize) as u32;
    }
}

fn stretch(call: &mut Call, less: Less) {
    if let Call::AreaReport { stretch, .. } = call {
        *stretch = less(*stretch as usize) as u32;
    }
}

fn halve(length: usize) -> usize {
    length / 2
}

fn one_less(length: usize) -> usize {
    length.saturating_sub(1)
}
