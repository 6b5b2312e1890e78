//! A card that keeps its tenants' ticks as numbers, for those that are to be wrong: what a tenant
//! keeps besides, and what that does to its ticks, is each one's own. The card follows the calls
//! that the right one accepts, and refuses as that does.

use crate::generate::Run;
use crate::records;
use crate::turns::{Change, Description};
use std::collections::BTreeMap;

pub struct Tenant<K> {
    pub terms: Description,
    pub runnable: bool,
    pub usable: u64,
    pub kept: K,
}

impl<K> Tenant<K> {
    fn urgency(&self) -> (u8, u32) {
        (self.terms.priority, self.terms.identifier)
    }
}

/// What a tenant keeps of its own.
pub trait Kept: Sized {
    /// It held the core from `last` to `now`; its usable ticks are less already.
    fn charge(tenant: &mut Tenant<Self>, last: u64, now: u64);
    /// The ticks that it says to have brought.
    fn bring_in(tenant: &mut Tenant<Self>, now: u64) -> u64;
    /// A call leaves it runnable or not; its admission too.
    fn leave(tenant: &mut Tenant<Self>, runnable: bool, now: u64);
    /// What the timer looks at, of one that runs or is more urgent.
    fn comes_next(tenant: &Tenant<Self>, now: u64, runs: bool) -> Option<u64>;
}

struct Card<K, F> {
    keep: F,
    tenants: BTreeMap<u32, Tenant<K>>,
    running: Option<u32>,
    last: u64,
}

impl<K: Kept, F: Fn(&Description, u64) -> K> Card<K, F> {
    fn change(&mut self, change: &Change, now: u64) {
        match *change {
            Change::Admit(terms) => {
                let (usable, kept) = (u64::from(terms.capacity), (self.keep)(&terms, now));
                self.tenants.insert(terms.identifier, Tenant { terms, runnable: false, usable, kept });
                self.leave(terms.identifier, false, now);
            }
            Change::Remove(identifier) => drop(self.tenants.remove(&identifier)),
            Change::Wake(identifier) => self.leave(identifier, true, now),
            Change::Block(identifier) => self.leave(identifier, false, now),
            Change::Tick => (),
        }
    }

    fn leave(&mut self, identifier: u32, runnable: bool, now: u64) {
        let tenant = self.tenants.get_mut(&identifier).expect("it was accepted");
        K::leave(tenant, runnable, now);
        tenant.runnable = runnable;
    }

    fn line(&mut self, change: &Change, now: u64) -> String {
        if let Some(tenant) = self.running.and_then(|identifier| self.tenants.get_mut(&identifier)) {
            tenant.usable = tenant.usable.saturating_sub(now - self.last);
            K::charge(tenant, self.last, now);
        }
        let total: u64 = self.tenants.values_mut().map(|tenant| K::bring_in(tenant, now)).sum();
        self.change(change, now);
        let able = self.tenants.values().filter(|tenant| tenant.runnable && tenant.usable > 0);
        let chosen = able.min_by_key(|tenant| tenant.urgency());
        let timer = self.timer(chosen, now).map_or("-".to_string(), |timer| timer.to_string());
        let told = chosen
            .map_or("- 0".to_string(), |tenant| format!("{} {}", tenant.terms.identifier, tenant.usable));
        (self.running, self.last) = (chosen.map(|tenant| tenant.terms.identifier), now);
        format!("ok {now} {told} {timer} {total}\n")
    }

    /// Where the chosen one is used up, or ticks come to it or to a runnable more urgent one.
    fn timer(&self, chosen: Option<&Tenant<K>>, now: u64) -> Option<u64> {
        let counts = |tenant: &&Tenant<K>| {
            tenant.runnable && chosen.is_none_or(|chosen| tenant.urgency() <= chosen.urgency())
        };
        let runs = |tenant: &Tenant<K>| chosen.is_some_and(|chosen| tenant.urgency() == chosen.urgency());
        let next = |tenant| K::comes_next(tenant, now, runs(tenant));
        let awaited = self.tenants.values().filter(counts).filter_map(next);
        awaited.chain(chosen.map(|tenant| now + tenant.usable)).min()
    }
}

/// What a card with such tenants writes where the right one wrote the lines of the run.
pub fn output<K: Kept>(run: &Run, keep: impl Fn(&Description, u64) -> K) -> String {
    let mut card = Card { keep, tenants: BTreeMap::new(), running: None, last: 0 };
    let line = |(record, right): (&Vec<u8>, &String)| match records::read(record) {
        Ok((call, _)) if right.starts_with("ok") => card.line(&call.change, call.time),
        _ => right.clone(),
    };
    run.records.iter().zip(&run.lines).map(line).collect()
}
