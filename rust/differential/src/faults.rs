//! Sets of faults, of which the first in an order is given.

/// Refusals whose conditions hold, each a bit at its place in the order.
#[derive(Clone, Copy, Debug)]
pub struct Faults {
    order: &'static [u32],
    set: usize,
}

impl Faults {
    pub fn new(order: &'static [u32], set: usize) -> Faults {
        Faults { order, set }
    }

    pub fn has(self, refusal: u32) -> bool {
        self.set & self.bit(refusal) != 0
    }

    pub fn without(self, refusal: u32) -> Faults {
        Faults {
            set: self.set & !self.bit(refusal),
            ..self
        }
    }

    /// The one that is given.
    pub fn first(self) -> Option<u32> {
        let mut order = self.order.iter().copied();
        order.find(|&refusal| self.has(refusal))
    }

    fn bit(self, refusal: u32) -> usize {
        let place = self.order.iter().position(|&listed| listed == refusal);
        1 << place.expect("it is in the order")
    }
}
