//! Random runs of event records. The generator follows the card with its own turns, so
//! that most calls are accepted, and notes which cases a run meets.

use crate::card_cases::{self, Notes};
use crate::endings;
use crate::leaving;
use crate::lines::{self, Card};
use crate::random::Random;
use crate::reached::Reached;
use crate::records;
use crate::returns;
use crate::row_cases;
use crate::script::{self, Scripts};
use crate::totals;
use crate::turns::{Call, Change, Core, Description, Vcpu};
use crate::turns::{LARGEST_IDENTIFIER, LARGEST_PERIOD, LARGEST_TIME};

/// One input for the card and the lines that it should give. Only the last record can be
/// cut short or damaged in its header; what stands behind it is not to be looked at.
#[derive(Default)]
pub struct Run {
    pub records: Vec<Vec<u8>>,
    pub behind: Vec<u8>,
    pub lines: Vec<String>,
}

impl Run {
    pub fn input(&self) -> Vec<u8> {
        let mut bytes = self.records.concat();
        bytes.extend(&self.behind);
        bytes
    }

    #[cfg(test)]
    pub fn output(&self) -> String {
        self.lines.concat()
    }
}

#[derive(Clone, Copy)]
enum Capacities {
    Any,
    Whole,
    Few,
    Many,
}

/// What kind of card a run follows.
#[derive(Clone, Copy)]
struct Mood {
    late: bool,
    most: usize,
    periods: (u32, u32),
    capacities: Capacities,
    step: u64,
    /// Wakes and blocks in turn mostly, so that slices are many and short.
    blinks: bool,
}

const CALM: Mood =
    Mood { late: false, most: 4, periods: (1, 12), capacities: Capacities::Any, step: 3, blinks: false };

const MOODS: [Mood; 10] = [
    CALM,
    Mood { most: 2, periods: (3, 30), capacities: Capacities::Whole, step: 5, ..CALM },
    Mood { most: 5, periods: (60, 300), capacities: Capacities::Many, step: 4, ..CALM },
    Mood { most: 8, periods: (100, 2000), capacities: Capacities::Many, step: 9, ..CALM },
    Mood { most: 32, periods: (5, 60), capacities: Capacities::Few, step: 4, ..CALM },
    Mood { most: 32, periods: (1000, 100_000), step: 90, ..CALM },
    Mood { late: true, periods: (1, 40), ..CALM },
    Mood { most: 12, periods: (1, LARGEST_PERIOD), step: 40_000, ..CALM },
    Mood { most: 1, periods: (90, 900), capacities: Capacities::Many, blinks: true, ..CALM },
    Mood { most: 3, periods: (90, 900), capacities: Capacities::Many, blinks: true, ..CALM },
];

/// How many calls go by from one refused admit to the next, about, and from one who comes back
/// or leaves to the next.
const REFUSED_ONCE_IN: u64 = 25;
const LEAVES_ONCE_IN: u64 = 12;

/// Which kinds a run admits. A run of sporadic ones alone is, but for the byte of its kind,
/// the run of document 01: nothing more is drawn for it.
#[derive(Clone, Copy, PartialEq)]
enum Kinds {
    Sporadic,
    All,
    Refilled,
}

/// Gone through by tens of places, so that each meets every mood.
const KINDS: [Kinds; 4] = [Kinds::All, Kinds::Sporadic, Kinds::All, Kinds::Refilled];

pub struct Generator<'a> {
    random: Random,
    mood: Mood,
    kinds: Kinds,
    /// What refused admits between the calls are drawn from, if there are any.
    refused: Option<Random>,
    /// What the scripts, and those who leave and come back between the calls, are drawn from, if
    /// there are any.
    leaving: Option<Random>,
    /// As before request 3: nobody is remembered.
    #[cfg(test)]
    forgets: bool,
    pool: Vec<u32>,
    core: Core,
    notes: Notes,
    run: Run,
    reached: &'a mut Reached,
}

/// The run of a seed and a place, of about so many records.
pub fn run(seed: u64, place: u64, length: u64, reached: &mut Reached) -> Run {
    let mut generator = Generator::new(kinds_at(place), seed, place, reached);
    let mut others = generator.random.clone();
    generator.refused = Some(Random::new(others.next()));
    generator.leaving = Some(Random::new(others.next()));
    generator.write(place, length)
}

/// The scripts that runs begin with, by tens of places as the kinds are: those of the returns have
/// sporadic ones alone.
const SCRIPTS: [Scripts; KINDS.len()] = [&leaving::SCRIPTS, &returns::SCRIPTS, &totals::SCRIPTS, &[]];

/// The scripts of a place and the number of its own, if it has one: three of four runs, in each mood
/// but that which leaps over nearly all of time. They are gone through one by one.
fn script_at(place: u64) -> Option<(Scripts, u64)> {
    let moods = MOODS.len();
    let (tens, mood) = (place / moods as u64, (place % moods as u64) as usize);
    let scripts = SCRIPTS[(tens % KINDS.len() as u64) as usize];
    let fits = !scripts.is_empty() && !MOODS[mood].late;
    let fitting = |some: &[Mood]| some.iter().filter(|mood| !mood.late).count() as u64;
    let number = tens / KINDS.len() as u64 * fitting(&MOODS) + fitting(&MOODS[..mood]);
    fits.then_some((scripts, number))
}

/// Whether the run of that place admits sporadic ones alone.
#[cfg(test)]
pub fn is_sporadic(place: u64) -> bool {
    kinds_at(place) == Kinds::Sporadic
}

fn kinds_at(place: u64) -> Kinds {
    let tens = place / MOODS.len() as u64;
    KINDS[(tens % KINDS.len() as u64) as usize]
}

/// Pairs that are equal in their low 16 bits, and the two ends.
fn identifiers(random: &mut Random) -> Vec<u32> {
    let mut pool = vec![0, LARGEST_IDENTIFIER, 0x00_ffff, 0x01_0000, 257, 65793, 65537];
    while pool.len() < 48 {
        let low = random.below(1 << 16) as u32;
        pool.extend([low, low + ((random.between(1, 255) as u32) << 16)]);
    }
    pool
}

/// One byte of the payload becomes another, but not the kind where all are sporadic.
fn damage(record: &mut [u8], kinds: Kinds, random: &mut Random, reached: &mut Reached) {
    let kind = record.len() - 1;
    let place = match (record[0], kinds) {
        (1, Kinds::Sporadic) => records::HEADER + random.index(kind - records::HEADER),
        (1, _) if random.once_in(4) => kind,
        _ => records::HEADER + random.index(record.len() - records::HEADER),
    };
    record[place] ^= random.between(1, 255) as u8;
    let field = match place {
        3..=10 => "time",
        11..=13 => "identifier",
        14..=17 => "period",
        18..=21 => "capacity",
        22 => "priority",
        _ => "kind",
    };
    reached.add(format!("{field} of tag {} damaged", record[0]));
}

impl Generator<'_> {
    fn new(kinds: Kinds, seed: u64, place: u64, reached: &mut Reached) -> Generator<'_> {
        let mut random = Random::new(seed.wrapping_mul(1_000_003).wrapping_add(place));
        let mood = MOODS[(place % MOODS.len() as u64) as usize];
        let pool = identifiers(&mut random);
        let core = Core::new();
        let run = Run::default();
        let notes = Notes::default();
        Generator {
            random,
            mood,
            kinds,
            refused: None,
            leaving: None,
            #[cfg(test)]
            forgets: false,
            pool,
            core,
            notes,
            run,
            reached,
        }
    }

    fn write(mut self, place: u64, length: u64) -> Run {
        self.put_script(place);
        self.fill(length);
        self.finish(place);
        self.run
    }

    fn fill(&mut self, length: u64) {
        if self.mood.late {
            self.admit_for_the_leap();
            let time = LARGEST_TIME - self.random.between(0, 3 * length);
            self.put(records::write(&Call { time, change: Change::Tick }));
        }
        let mut at_the_end = 0;
        for _ in 0..length {
            if self.core.last == LARGEST_TIME {
                at_the_end += 1;
            }
            if at_the_end > 60 {
                return;
            }
            let call = self.call();
            let mut record = records::write(&call);
            if self.random.once_in(60) {
                damage(&mut record, self.kinds, &mut self.random, self.reached);
            }
            self.put(record);
            self.put_refused();
            self.put_leaving();
        }
    }

    fn put_script(&mut self, place: u64) {
        let (Some(random), Some((scripts, number))) = (&mut self.leaving, script_at(place)) else { return };
        let script = scripts[(number % scripts.len() as u64) as usize];
        for call in script::calls(script, &self.core, random) {
            self.put(records::write(&call));
        }
    }

    /// Now and then somebody leaves, or one who left comes back, too early or not.
    fn put_leaving(&mut self) {
        let Some(mut random) = self.leaving.take() else { return };
        if random.once_in(LEAVES_ONCE_IN) {
            let mut record = records::write(&self.leaving_call(&mut random));
            if random.once_in(6) {
                // A run keeps to its kinds.
                damage(&mut record, Kinds::Sporadic, &mut random, self.reached);
            }
            self.put(record);
        }
        self.leaving = Some(random);
    }

    fn leaving_call(&self, random: &mut Random) -> Call {
        let last = self.core.last;
        let latest = self.core.timer.unwrap_or(LARGEST_TIME).min(LARGEST_TIME);
        let gone: Vec<(u32, u64)> = self.core.remembered.iter().map(|(&who, &until)| (who, until)).collect();
        let stays: Vec<u32> = self.core.vcpus.keys().copied().collect();
        if gone.is_empty() || random.once_in(4) && !stays.is_empty() {
            let time = random.between(last, latest.min(last + self.mood.step));
            let change = if stays.is_empty() { Change::Tick } else { Change::Remove(*random.pick(&stays)) };
            return Call { time, change };
        }
        let (identifier, until) = *random.pick(&gone);
        let time = [until, until, until - 1, last][random.index(4)].clamp(last, latest);
        let mut description = self.notes.stays.last_terms(identifier).expect("it was on the card");
        if random.once_in(3) {
            description.period += 1;
        }
        Call { time, change: Change::Admit(description) }
    }

    /// Now and then an admit that some row refuses. A refusal changes nothing, so the calls
    /// around it are those of the run without it.
    fn put_refused(&mut self) {
        let Some(mut random) = self.refused.take() else { return };
        if random.once_in(REFUSED_ONCE_IN) {
            let call = self.faulty_admit(&mut random);
            if !row_cases::rows(&self.core, &call).is_empty() {
                self.put(records::write(&call));
            }
        }
        self.refused = Some(random);
    }

    /// Mostly with several faults: the time, the terms, the kind and the identifier.
    fn faulty_admit(&self, random: &mut Random) -> Call {
        let time = match (random.below(8), self.core.timer) {
            (0, _) => LARGEST_TIME + 1,
            (1, _) => self.core.last.saturating_sub(1),
            (2, Some(timer)) => timer + 1,
            _ => self.core.last,
        };
        let (period, capacity) = match random.below(8) {
            0 | 1 => (10, 3),
            2 => *random.pick(&row_cases::LOW_BITS),
            _ => {
                let (period, capacity, _) = *random.pick(&row_cases::TERMS);
                (period, capacity)
            }
        };
        let kind = *random.pick(&[0, 1, 2, 0, 1, 2, 3, 255]);
        let on_card: Vec<u32> = self.core.vcpus.keys().copied().collect();
        let gone: Vec<u32> = self.core.remembered.keys().copied().collect();
        let known = if random.once_in(3) && !gone.is_empty() { gone } else { on_card };
        let is_known = random.once_in(2) && !known.is_empty();
        let identifier = *random.pick(if is_known { &known } else { &self.pool });
        let description = Description { identifier, period, capacity, priority: 1, kind };
        Call { time, change: Change::Admit(description) }
    }

    /// Nobody is runnable yet, so the leap passes all boundaries there are in one call.
    fn admit_for_the_leap(&mut self) {
        if self.kinds == Kinds::Sporadic {
            return;
        }
        for kind in [1, 2] {
            let identifier = self.any();
            let description = Description { identifier, period: 1, capacity: 1, priority: kind, kind };
            self.put(records::write(&Call { time: 0, change: Change::Admit(description) }));
        }
    }

    /// Follows a whole record and keeps its line.
    fn put(&mut self, record: Vec<u8>) {
        let (call, _) = records::read(&record).expect("a whole record");
        let before = card_cases::before(&self.core, &call, &self.notes);
        let answer = self.core.call(&call);
        #[cfg(test)]
        if self.forgets {
            self.core.remembered.clear();
        }
        card_cases::note(&before, &call, &answer, &self.core, &mut self.notes, self.reached);
        self.run.lines.push(lines::line(&answer));
        self.run.records.push(record);
    }

    /// Ends the run; the endings are gone through by the run's place. The reader says what
    /// the card answers, and whether it stops before the input does.
    fn finish(&mut self, place: u64) {
        let time = self.core.last;
        let ending = endings::ending(place, time, self.pool[0]);
        self.reached.add(ending.case);
        let offset = self.run.input().len() as u64;
        let mut card = Card::after(std::mem::replace(&mut self.core, Core::new()), offset);
        let mut lines = card.take(&ending.record);
        if card.has_stopped() && self.random.once_in(2) {
            self.run.behind = records::write(&Call { time, change: Change::Tick });
            self.reached.add("bytes behind a stop");
        }
        lines += &(card.take(&self.run.behind) + &card.end());
        if let (Err(number), false) = (records::read(&ending.record), ending.record.is_empty()) {
            self.reached.add_refusal(number);
            self.run.records.push(ending.record);
            self.run.lines.push(lines);
        }
    }

    fn call(&mut self) -> Call {
        if self.kinds != Kinds::Sporadic && self.random.once_in(4) {
            if let Some(call) = self.at_boundary() {
                return call;
            }
        }
        Call { time: self.time(), change: self.change() }
    }

    /// A call at the next boundary of one on the card, mostly one that speaks of it.
    fn at_boundary(&mut self) -> Option<Call> {
        let latest = self.core.timer.unwrap_or(LARGEST_TIME).min(LARGEST_TIME);
        let next = |vcpu: &Vcpu| Some((vcpu.next_boundary(self.core.last)?, vcpu.description.identifier));
        let all = self.core.vcpus.values().filter_map(next);
        let in_time: Vec<(u64, u32)> = all.filter(|&(boundary, _)| boundary <= latest).collect();
        if in_time.is_empty() {
            return None;
        }
        let (time, identifier) = *self.random.pick(&in_time);
        let change = match self.random.below(12) {
            0..=3 => Change::Wake(identifier),
            4..=7 => Change::Block(identifier),
            8 => Change::Remove(identifier),
            9 => self.admit(),
            _ => Change::Tick,
        };
        Some(Call { time, change })
    }

    fn time(&mut self) -> u64 {
        let last = self.core.last;
        let wrong = self.random.below(400);
        match (wrong, self.core.timer) {
            (0..=5, Some(timer)) => return timer + 1,
            (6..=8, Some(timer)) => return timer + self.random.between(1, 50),
            (9..=12, _) => return last.saturating_sub(self.random.between(1, 20)),
            (13, _) => return LARGEST_TIME + 1,
            (14, _) => return self.random.next() | (1 << 50),
            (15, _) => return u64::MAX,
            _ => (),
        }
        let step = self.random.between(1, self.mood.step);
        let free = if self.random.once_in(50) { 20 * self.mood.step } else { step };
        let short = self.mood.blinks && !self.random.once_in(12);
        let how = if short { 9 } else { self.random.below(10) };
        let wanted = match (how, self.core.timer) {
            (0..=2, _) => last,
            (3..=4, Some(timer)) => timer,
            (5, Some(timer)) => self.random.between(last, timer),
            (6, Some(timer)) => (timer - 1).max(last),
            (_, Some(timer)) => (last + step).min(timer),
            (_, None) => last + free,
        };
        wanted.min(LARGEST_TIME)
    }

    fn change(&mut self) -> Change {
        if self.kinds != Kinds::Sporadic && self.random.once_in(80) {
            return self.admit_unknown_kind();
        }
        let count = self.core.vcpus.len();
        let taken = count + self.core.remembered_count(self.core.last);
        let filling = taken < self.mood.most && self.random.below(10) < 3;
        if filling || count == 0 && !self.random.once_in(10) {
            return self.admit();
        }
        if self.mood.blinks && !self.random.once_in(8) {
            return self.blink();
        }
        match self.random.below(100) {
            0..=29 => Change::Tick,
            30..=59 => Change::Wake(self.on_card(false)),
            60..=86 => Change::Block(self.on_card(true)),
            87..=89 => self.admit(),
            90..=91 => Change::Wake(self.any()),
            92..=93 => Change::Block(self.any()),
            94..=95 => Change::Remove(self.any()),
            96 => Change::Remove(self.core.running.unwrap_or(0)),
            97 => Change::Admit(self.description()),
            _ if self.mood.most < 32 => Change::Remove(self.on_card(true)),
            _ => Change::Tick,
        }
    }

    fn blink(&mut self) -> Change {
        match self.core.running {
            Some(identifier) => Change::Block(identifier),
            None => Change::Wake(self.on_card(false)),
        }
    }

    fn any(&mut self) -> u32 {
        *self.random.pick(&self.pool)
    }

    /// An identifier on the card, if one can be had with this readiness to run.
    fn on_card(&mut self, runnable: bool) -> u32 {
        let vcpus = self.core.vcpus.values().filter(|vcpu| vcpu.runnable() == runnable);
        let fitting: Vec<u32> = vcpus.map(|vcpu| vcpu.description.identifier).collect();
        if fitting.is_empty() || self.random.once_in(30) {
            return self.any();
        }
        *self.random.pick(&fitting)
    }

    /// An admit that is mostly accepted. Now and then the identifier just removed comes
    /// back at once.
    fn admit(&mut self) -> Change {
        let mut description = self.description();
        for _ in 0..4 {
            if self.core.vcpus.contains_key(&description.identifier) {
                description.identifier = self.any();
            }
        }
        if self.random.once_in(20) {
            self.spoil(&mut description);
        }
        Change::Admit(description)
    }

    /// Beside it often what another row refuses.
    fn admit_unknown_kind(&mut self) -> Change {
        let mut description = self.description();
        let other = self.random.between(3, 255) as u8;
        description.kind = *self.random.pick(&[3, 255, other]);
        if self.random.once_in(3) {
            description.identifier = self.on_card(true);
        }
        if self.random.once_in(4) {
            self.spoil(&mut description);
        }
        Change::Admit(description)
    }

    fn description(&mut self) -> Description {
        let (low, high) = self.mood.periods;
        let period = match self.random.below(40) {
            0 => 1,
            1 => LARGEST_PERIOD,
            _ => self.random.between(low.into(), high.into()) as u32,
        };
        let priority = match self.random.below(10) {
            0 => 0,
            1 => 255,
            2 => self.random.below(256) as u8,
            _ => self.random.below(4) as u8,
        };
        let identifier = match self.notes.removed {
            Some(identifier) if self.random.once_in(3) => identifier,
            _ => self.any(),
        };
        let kind = match self.kinds {
            Kinds::Sporadic => 0,
            Kinds::All => self.random.below(3) as u8,
            Kinds::Refilled => self.random.between(1, 2) as u8,
        };
        Description { identifier, period, capacity: self.capacity(period), priority, kind }
    }

    fn capacity(&mut self, period: u32) -> u32 {
        let whole = u64::from(period);
        let capacity = match (self.random.below(12), self.mood.capacities) {
            (0, _) => whole,
            (1, _) => 1,
            (2..=8, Capacities::Whole) => whole,
            (_, Capacities::Few) => self.random.between(1, whole.div_ceil(16)),
            (_, Capacities::Many) => self.random.between(whole.div_ceil(3), whole),
            _ => self.random.between(1, whole),
        };
        capacity as u32
    }

    fn spoil(&mut self, description: &mut Description) {
        let period = description.period;
        match self.random.below(6) {
            0 => description.period = 0,
            1 => description.period = LARGEST_PERIOD + 1,
            2 => description.period = u32::MAX,
            3 => description.capacity = 0,
            4 => description.capacity = period + 1,
            _ => (description.period, description.capacity) = (0, 0),
        }
    }
}

#[cfg(test)]
mod tests {
    use super::*;

    /// FNV-1a.
    struct Sum {
        sum: u64,
        count: u64,
    }

    const BASIS: u64 = 0xcbf2_9ce4_8422_2325;

    impl Sum {
        fn join(&mut self, bytes: &[u8]) {
            for &byte in bytes {
                self.sum = (self.sum ^ u64::from(byte)).wrapping_mul(0x0100_0000_01b3);
            }
        }

        /// The whole records of a run, each with its line, as these two write them.
        fn take(&mut self, run: &Run, record: impl Fn(&[u8]) -> Vec<u8>, line: fn(&str) -> String) {
            for (its, answer) in whole(run) {
                self.join(&record(its));
                self.join(line(answer).as_bytes());
                self.count += 1;
            }
        }
    }

    /// A record as document 01 has it: an admit without its kind, and with its length.
    fn without_kind(record: &[u8]) -> Vec<u8> {
        match record {
            [1, 0, 21, payload @ .., 0] => [&[1, 0, 20], payload].concat(),
            [1, ..] => panic!("an admit of a kind: {record:?}"),
            _ => record.to_vec(),
        }
    }

    /// A line as it was before request 2, which gave 5 where it gives 11 and 12, and before
    /// request 5, which had no total.
    fn as_it_was(line: &str) -> String {
        match line {
            "no 11 0\n" | "no 12 0\n" => "no 5 0\n".to_string(),
            _ => without_total(line),
        }
    }

    fn without_total(line: &str) -> String {
        match line.rsplit_once(' ') {
            Some((front, _)) if line.starts_with("ok ") => format!("{front}\n"),
            _ => line.to_string(),
        }
    }

    /// The sum over the whole records and the lines of a thousand runs, and how many those
    /// are. The ending alone is no whole record.
    fn summed(kinds: impl Fn(u64) -> Kinds, written: impl Fn(&[u8]) -> Vec<u8>) -> (u64, u64) {
        let mut sum = Sum { sum: BASIS, count: 0 };
        for place in 0..1000 {
            let mut reached = Reached::default();
            let mut generator = Generator::new(kinds(place), 1, place, &mut reached);
            generator.forgets = true;
            sum.take(&generator.write(place, 400), &written, as_it_was);
        }
        (sum.sum, sum.count)
    }

    /// Every run of document 01 gives, with the kind 0 and on a card that remembers nobody, the
    /// lines that it gave before. The sum is that of the second program before request 1 (commit
    /// 024849a), over the whole records and the lines of its `run(1, place, 400, ..)` for these
    /// places.
    #[test]
    fn runs_of_document_01_give_the_lines_they_gave() {
        assert_eq!(summed(|_| Kinds::Sporadic, without_kind), (0xf03b_46e7_ffe3_63b0, 385_693));
    }

    /// The same of request 1: the sum is that of the second program before request 2 (commit
    /// c7dea83).
    #[test]
    fn runs_of_request_1_give_the_lines_they_gave() {
        assert_eq!(summed(kinds_at, <[u8]>::to_vec), (0x98f7_a902_7335_27f2, 387_199));
    }

    /// The same of requests 3 and 4, of the runs that a comparison makes but for those that begin with
    /// scripts of the totals: the sum is that of the second program before request 5 (commit
    /// e643cc8).
    #[test]
    fn runs_of_requests_3_and_4_give_the_lines_they_gave_and_a_total() {
        let mut sum = Sum { sum: BASIS, count: 0 };
        for place in (0..1000).filter(|place| place / 10 % 4 != 2) {
            sum.take(&run(1, place, 400, &mut Reached::default()), <[u8]>::to_vec, without_total);
        }
        assert_eq!((sum.sum, sum.count), (0xd334_85e7_e88f_7809, 352_512));
    }

    /// Each of them twice or more in the smallest comparison, and none left out.
    #[test]
    fn the_scripts_are_gone_through_one_by_one() {
        for (sort, scripts) in SCRIPTS.iter().enumerate() {
            let places = (0..300).filter(|place| place / 10 % 4 == sort as u64);
            let numbers: Vec<u64> = places.filter_map(script_at).map(|(_, number)| number).collect();
            assert!(numbers.iter().copied().eq(0..numbers.len() as u64), "{numbers:?}");
            assert!(numbers.len() >= 2 * scripts.len(), "{}", numbers.len());
        }
    }

    /// The whole records with their lines.
    fn whole(run: &Run) -> Vec<(&Vec<u8>, &String)> {
        let all = run.records.iter().zip(&run.lines);
        all.filter(|(record, _)| records::read(record).is_ok()).collect()
    }

    /// The admits between the calls are all refused, and the calls around them are the same.
    #[test]
    fn refused_admits_change_nothing_else() {
        let mut count = 0;
        for place in 0..100 {
            let without =
                Generator::new(kinds_at(place), 1, place, &mut Reached::default()).write(place, 100);
            let mut reached = Reached::default();
            let mut generator = Generator::new(kinds_at(place), 1, place, &mut reached);
            generator.refused = Some(Random::new(generator.random.clone().next()));
            let with = generator.write(place, 100);
            let mut left = whole(&without).into_iter().peekable();
            let is_added = |both: &(&Vec<u8>, &String)| left.next_if(|next| next == both).is_none();
            let added: Vec<_> = whole(&with).into_iter().filter(is_added).collect();
            assert!(left.next().is_none() && added.iter().all(|(_, line)| line.starts_with("no ")));
            count += added.len();
        }
        assert!(count > 200, "{count}");
    }
}
