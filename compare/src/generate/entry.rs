//! One result of a plan.

use crate::calls::Call;
use crate::prng::Prng;
use crate::refusal::Refusal;
use crate::sheet::Frame;
use crate::tally::Tally;
use crate::weights::Weighing;

/// A container with its X, or with what a balance sent for it.
#[derive(Clone, Copy, Debug)]
pub struct Entry {
    pub container: u16,
    given: Given,
}

#[derive(Clone, Copy, Debug)]
enum Given {
    X(u16),
    Weighing(Weighing),
}

/// How a weighing is made for an X that is wanted.
pub type Balance = fn(&mut Prng, u16) -> Weighing;

impl Entry {
    pub fn entered(container: u16, x: u16) -> Self {
        Self { container, given: Given::X(x) }
    }

    pub fn weighed(container: u16, weighing: Weighing) -> Self {
        Self { container, given: Given::Weighing(weighing) }
    }

    /// X, where a weighing has one.
    pub fn x(&self) -> u16 {
        match self.given {
            Given::X(x) => x,
            Given::Weighing(weighing) => weighing.x().unwrap_or(0),
        }
    }

    pub fn frame(&self) -> Frame {
        let container = self.container;
        match self.given {
            Given::X(x) => Frame::Result { container, x },
            Given::Weighing(weighing) => Frame::Weighed { container, weighing },
        }
    }

    pub fn call(&self, on: usize) -> Call {
        let container = self.container;
        match self.given {
            Given::X(x) => Call::Enter { on, container, x },
            Given::Weighing(weighing) => Call::Weigh { on, container, weighing },
        }
    }

    pub fn enter(&self, tally: &mut Tally) -> Result<(), Refusal> {
        match self.given {
            Given::X(x) => tally.enter(self.container, x),
            Given::Weighing(weighing) => tally.weigh(self.container, &weighing),
        }
    }
}
