//! A script for the front of a run. It follows the card with turns of its own, so that its times
//! fit.

use crate::random::Random;
use crate::turns::{Call, Change, Core, Description, LARGEST_IDENTIFIER};

pub struct Script {
    pub core: Core,
    pub random: Random,
    /// The ticks of the shortest use.
    pub unit: u64,
    calls: Vec<Call>,
}

/// Those of one sort.
pub type Scripts = &'static [fn(&mut Script)];

/// The calls of a script, from the card as it stands.
pub fn calls(script: fn(&mut Script), core: &Core, random: &mut Random) -> Vec<Call> {
    let random = Random::new(random.next());
    let mut of = Script { core: core.clone(), random, unit: 1, calls: Vec::new() };
    script(&mut of);
    of.calls
}

impl Script {
    pub fn put(&mut self, time: u64, change: Change) {
        let call = Call { time, change };
        // Many are there to be refused.
        self.core.call(&call).ok();
        self.calls.push(call);
    }

    /// Behind a tick at each timer that comes before it.
    pub fn put_in_time(&mut self, time: u64, change: Change) {
        while let Some(timer) = self.core.timer.filter(|&timer| timer < time) {
            self.put(timer, Change::Tick);
        }
        self.put(time, change);
    }

    pub fn put_now(&mut self, change: Change) {
        self.put(self.core.last, change);
    }

    pub fn any(&mut self) -> u32 {
        self.random.below(u64::from(LARGEST_IDENTIFIER) + 1) as u32
    }

    pub fn admit_now(&mut self, tenants: &[Description]) {
        for tenant in tenants {
            self.put_now(Change::Admit(*tenant));
        }
    }

    pub fn until(&self, identifier: u32) -> u64 {
        self.core.remembered_until(identifier, self.core.last).unwrap_or(self.core.last)
    }
}
