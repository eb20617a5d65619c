//! Any choice of faults at once, one fault for each refusal that an operation gives, so that the order of the refusals shows.

/// A choice among the refusals of an operation, and whether the fault of 4 stands before that of 3.
#[derive(Clone, Copy)]
pub struct Faults {
    /// The refusals in the order in which they are given: 3 and 4 by whichever word comes first.
    order: &'static [u32],
    /// The bit of its number for each refusal that is to fit.
    pub chosen: u32,
    pub nesting_first: bool,
}

/// Every choice among the refusals of an order, with either order of the faults of 3 and 4.
pub fn every(order: &'static [u32]) -> impl Iterator<Item = Faults> {
    let bits = move |choice: u32| (0..).zip(order).map(|(at, refusal)| (choice >> at & 1) << refusal).sum();
    let choices = (0..1 << order.len()).map(bits);
    choices.flat_map(move |chosen| [false, true].map(|nesting_first| Faults { order, chosen, nesting_first }))
}

impl Faults {
    /// Whether the refusal is to fit.
    pub fn has(self, refusal: u32) -> bool {
        self.chosen >> refusal & 1 == 1
    }

    /// The same choice without the fault of a refusal.
    pub fn without(self, refusal: u32) -> Faults {
        Faults { chosen: self.chosen & !(1 << refusal), ..self }
    }

    /// The refusal that is due: the first in the order.
    pub fn due(self) -> Option<u32> {
        match self.order.iter().copied().find(|&refusal| self.has(refusal)) {
            Some(3) if self.has(4) && self.nesting_first => Some(4),
            first => first,
        }
    }

    /// 0, or a sum of the parts that are faults. 5: a variable without a lambda. 6: a number applied. 4: sums nested too
    /// deep. 3: a word of no kind. After them a part for another refusal.
    pub fn sum(self, last: Option<(u32, Vec<u32>)>) -> Vec<u32> {
        let deep = [[21, 17].repeat(256), vec![17]].concat();
        let (word, nesting) = ((3, vec![99]), (4, deep));
        let [one, other] = if self.nesting_first { [nesting, word] } else { [word, nesting] };
        let parts = [(5, vec![16]), (6, vec![19, 17, 17]), one, other];
        let chosen = parts.into_iter().chain(last).filter(|(refusal, _)| self.has(*refusal)).map(|(_, words)| words);
        chosen.fold(vec![17], |sum, part| [vec![21], sum, part].concat())
    }
}
