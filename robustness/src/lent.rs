//! Memory for one call at a time, filled anew for each.
use crate::call::{Call, Given};
use crate::memory::{Content, Input, Output};
use crate::tally::Tally;
use crate::{names, outputs, regions};
use harness::dice::Dice;
use harness::{Regions, Space};

pub struct Inputs {
    regions: [Input; 3],
    has_common: bool,
    name: Input,
    space: Input,
    has_space: bool,
}

impl Inputs {
    pub fn new() -> Inputs {
        Inputs {
            regions: [(); 3].map(|_| Input::new(regions::LARGEST)),
            has_common: false,
            name: Input::new(0),
            space: Input::new(0),
            has_space: false,
        }
    }

    pub fn put_regions(&mut self, dice: &mut Dice, tally: &mut Tally) {
        let fit = dice.percent(60);
        self.has_common = dice.percent(70);
        tally.fed("common", if self.has_common { "there" } else { "absent, not to be read" });
        for (k, input) in self.regions.iter_mut().enumerate() {
            let content = regions::region(dice, k == 2, fit, tally);
            input.put(dice, &content, k != 1 || self.has_common);
        }
    }

    pub fn put_names(&mut self, dice: &mut Dice, call: Call, tally: &mut Tally) {
        let from = [0, 2][dice.below(2)];
        let name = match call {
            Call::Namespace => names::namespace(dice, tally),
            _ => names::name(dice, self.regions[from].lent(), tally),
        };
        self.name.put(dice, &Content::Bytes(name), true);
        self.has_space = dice.percent(35);
        let space = names::namespace(dice, tally);
        self.space.put(dice, &Content::Bytes(space), self.has_space);
    }

    pub fn given(&self) -> Given<'_> {
        let [worktree, common, packed] = [0, 1, 2].map(|k| self.regions[k].lent());
        let regions = Regions { worktree, common, has_common: self.has_common, packed };
        Given { regions, name: self.name.lent(), space: Space { name: self.space.lent(), given: self.has_space } }
    }
}

pub struct Outputs {
    pub state: Output,
    pub out: Output,
    /// The state that a call left last.
    pub last: Vec<u8>,
}

impl Outputs {
    pub fn new() -> Outputs {
        let new = || Output::new(outputs::LONGEST_OUTPUT);
        Outputs { state: new(), out: new(), last: Vec::new() }
    }

    pub fn put(&mut self, dice: &mut Dice, call: Call, tally: &mut Tally) {
        if call.has_out() {
            let out = outputs::out(dice, tally);
            self.out.put(dice, out, 0);
        }
        if call.has_state() {
            let state = match call {
                Call::ListOpen => outputs::unopened(dice, tally),
                _ => outputs::state(dice, &self.last, tally),
            };
            let read = if call == Call::ListStep { outputs::counts(&state) } else { 0 };
            self.state.put(dice, state, read);
        }
    }
}
