//! Random sizing queries: small ones mostly, some at the limits, some refused, some broken; half
//! of them in the aligned form, most of these with lists made for it.

use crate::harmonic::Lists;
use crate::long_lines;
use crate::random::Random;
use crate::shares::Form;
use crate::sizing::LONGEST_LINE;

const WORDS: [&str; 5] = ["supply", "demand", "check", "least", "best"];

/// The words that have an aligned form.
const ALIGNED_WORDS: [&str; 4] = ["supply", "check", "least", "best"];

/// The first stands alone or before itself.
pub const NEAR_ALIGNED: [&str; 5] = ["aligned", "alignedd", "Aligned", "aligne", "aligned\t"];

const NO_WORDS: [&[u8]; 17] = [
    b"",
    b"supplyy",
    b"Supply",
    b"suppl",
    b"sup",
    b"LEAST",
    b"bests",
    b"check\t",
    b"\0",
    b"demand\r",
    b"ok",
    b"\xc3\xa9",
    b"bestbestbestbest",
    b"\xff\xfe",
    b"helpp",
    b"HELP",
    b"hel",
];

const NO_NUMBERS: [&[u8]; 14] =
    [b"", b"x", b"-1", b"+1", b"1x", b"x1", b"0x5", b"1e2", b"1.0", b"\t", b"1\t", b"\0", b"\xb2", b"1\r"];

/// Of so many queries one is about as long as a line can be, since these take much room.
const LONG_EVERY: u64 = 1500;

/// The bytes of those, without a newline: around the longest line, and more than twice that.
pub const LONG: [u64; 5] = [LONGEST_LINE - 1, LONGEST_LINE, LONGEST_LINE + 1, LONGEST_LINE + 2, 140_000];

/// How those begin and go on; they end with a digit. The first two are answered by `ok`.
const LONG_FILLS: [(&[u8], &[u8]); 7] = [
    (b"supply 4 3 ", b"0"),
    (b"aligned supply 4 3 ", b"0"),
    (b"", b"aligned "),
    (b"least 5", b" 5 1"),
    (b"supply", b"y"),
    (b"help ", b"\r"),
    (b"", b"supply 4 3 7 "),
];

/// A query in numbers. The tasks are (period, cost).
struct Draft {
    word: &'static str,
    lead: Vec<u64>,
    tasks: Vec<(u64, u64)>,
}

/// A query in bytes.
struct Text {
    form: Form,
    word: Vec<u8>,
    fields: Vec<Vec<u8>>,
}

impl Text {
    fn line(&self) -> Vec<u8> {
        let mut line = match self.form {
            Form::Ordinary => Vec::new(),
            Form::Aligned => b"aligned ".to_vec(),
        };
        line.extend(&self.word);
        for field in &self.fields {
            line.push(b' ');
            line.extend(field);
        }
        line
    }
}

impl Draft {
    fn text(&self) -> Text {
        let mut numbers = self.lead.clone();
        for (period, cost) in &self.tasks {
            numbers.extend([*period, *cost]);
        }
        let fields = numbers.iter().map(|x| x.to_string().into_bytes()).collect();
        Text { form: Form::Ordinary, word: self.word.as_bytes().to_vec(), fields }
    }
}

/// About the steps that the plain reading takes over a line at most. A search for one least budget
/// ends half way on average.
fn weight(text: &Text) -> u64 {
    let number = |field: &Vec<u8>| std::str::from_utf8(field).ok()?.parse().ok();
    let Some(numbers) = text.fields.iter().map(number).collect::<Option<Vec<u64>>>() else {
        return 0;
    };
    let (times, skip) = match (&text.word[..], numbers.first()) {
        (b"check", _) => (1, 2),
        (b"least", Some(&p)) if p <= 2000 => (p.div_ceil(2), 1),
        // Only the divisors of the first period are tried.
        (b"best", Some(&p)) if p <= 2000 && text.form == Form::Aligned => {
            (4 * numbers.get(1).map_or(0, |&first| first.min(p)), 1)
        }
        (b"best", Some(&p)) if p <= 2000 => (p * p / 2, 1),
        _ => return 0,
    };
    let periods = numbers.iter().skip(skip).step_by(2).take(16);
    let once: u64 = periods.zip(1..).map(|(&p, i)| p.min(2000) * i).sum();
    times * once
}

const USUAL_WEIGHT: u64 = 2_000_000;
const SELDOM_WEIGHT: u64 = 600_000_000;

pub struct Queries {
    random: Random,
    made: u64,
}

impl Queries {
    pub fn new(seed: u64) -> Queries {
        Queries { random: Random::new(seed), made: 0 }
    }

    /// One line with its newline.
    pub fn next(&mut self) -> Vec<u8> {
        self.made += 1;
        if self.made % LONG_EVERY == 0 {
            return self.long_line(self.made / LONG_EVERY - 1);
        }
        let most = if self.random.once_in(4000) { SELDOM_WEIGHT } else { USUAL_WEIGHT };
        loop {
            let text = if self.random.once_in(2) { self.aligned() } else { self.query() };
            if weight(&text) <= most {
                let mut line = text.line();
                line.extend(self.ending());
                return line;
            }
        }
    }

    /// Each length in turn, without and with a carriage return; then so with the next fill.
    fn long_line(&mut self, turn: u64) -> Vec<u8> {
        let (place, carriage) = (turn / 2, turn % 2 == 1);
        let lengths = LONG.len() as u64;
        let bytes = LONG[(place % lengths) as usize] as usize;
        let (front, fill) = LONG_FILLS[(place / lengths) as usize % LONG_FILLS.len()];
        let end = format!("{}{}", self.random.below(10), if carriage { "\r" } else { "" });
        let mut line = long_lines::filled(front, fill, end.as_bytes(), bytes);
        line.push(b'\n');
        line
    }

    fn ending(&mut self) -> &'static [u8] {
        match self.random.below(1000) {
            0..=49 => b"\r\n",
            50..=52 => b"\r\r\n",
            _ => b"\n",
        }
    }

    fn query(&mut self) -> Text {
        match self.random.below(100) {
            0..=53 => self.small().text(),
            54 => self.help(),
            55..=64 => self.at_limits().text(),
            65..=74 => self.refused().text(),
            75..=79 => self.bad_tasks().text(),
            80..=87 => {
                let text = self.small().text();
                self.odd_numbers(text)
            }
            88..=95 => {
                let draft = if self.random.once_in(3) { self.refused() } else { self.small() };
                self.broken(draft.text())
            }
            96..=97 => self.long_list(),
            98 => self.no_word(),
            _ => Text { form: Form::Ordinary, word: Vec::new(), fields: Vec::new() },
        }
    }

    /// With lists made for the aligned form, aligned or nearly so, and any other query.
    fn aligned(&mut self) -> Text {
        let text = match self.random.below(100) {
            0..=24 => self.harmonic(false).text(),
            25..=31 => self.harmonic(true).text(),
            32..=46 => self.not_aligned().text(),
            47..=50 => {
                let text = self.harmonic(false).text();
                self.odd_numbers(text)
            }
            51..=55 => {
                let text = self.harmonic(false).text();
                self.broken(text)
            }
            56..=62 => self.bad_tasks().text(),
            63..=66 => self.long_list(),
            67..=68 => return self.nearly_aligned(),
            69 => self.behind("aligned"),
            _ => self.query(),
        };
        Text { form: Form::Aligned, ..text }
    }

    /// Periods that divide each other, and mostly a P that divides them.
    fn harmonic(&mut self, at_limits: bool) -> Draft {
        let word = *self.random.pick(&ALIGNED_WORDS);
        let tasks = if at_limits { self.lists().at_limits() } else { self.lists().small() };
        let p =
            if self.random.once_in(8) { self.lists().other(&tasks) } else { self.lists().divisor(&tasks) };
        self.aligned_draft(word, p, tasks)
    }

    /// Two neighbours that do not divide each other; or P does not; now and then P, B or the
    /// tasks are out of range too.
    fn not_aligned(&mut self) -> Draft {
        let word = *self.random.pick(&ALIGNED_WORDS[1..]);
        let apart = !self.random.once_in(4);
        let tasks = if apart { self.lists().apart() } else { self.lists().small() };
        let p = match self.random.below(3) {
            0 => self.lists().divisor(&tasks),
            1 => 1,
            _ => self.lists().other(&tasks),
        };
        let mut draft = self.aligned_draft(word, p, tasks);
        match self.random.below(12) {
            0..=1 => self.spoil_lead(&mut draft),
            2 => self.spoil_tasks(&mut draft),
            _ => (),
        }
        draft
    }

    fn aligned_draft(&mut self, word: &'static str, p: u64, tasks: Vec<(u64, u64)>) -> Draft {
        let b = self.lists().budget(&tasks, p);
        let p_max = *self.random.pick(&[p, p + 1, 2 * p + 1, 2 * tasks[0].0, 12, 2000]);
        let (lead, tasks) = match word {
            "supply" => (vec![p, b, self.lists().length(p, b)], Vec::new()),
            "check" => (vec![p, b], tasks),
            "least" => (vec![p], tasks),
            _ => (vec![p_max.min(2000)], tasks),
        };
        Draft { word, lead, tasks }
    }

    fn lists(&mut self) -> Lists<'_> {
        Lists { random: &mut self.random }
    }

    /// `aligned` alone, or what is nearly that before a good query.
    fn nearly_aligned(&mut self) -> Text {
        let near = *self.random.pick(&NEAR_ALIGNED);
        let mut text = self.behind(near);
        if near == "aligned" {
            text.fields.clear();
        }
        text
    }

    /// A good query, but for what stands before it.
    fn behind(&mut self, front: &str) -> Text {
        let mut text = self.harmonic(false).text();
        text.fields.insert(0, text.word);
        Text { word: front.as_bytes().to_vec(), ..text }
    }

    fn tasks(&mut self, n: u64, longest: u64) -> Vec<(u64, u64)> {
        let mut periods: Vec<u64> = (0..n).map(|_| self.random.between(1, longest)).collect();
        periods.sort();
        let share = self.random.between(1, 2 * n);
        let cost = |p: u64| (p, self.random.between(1, (p / share).max(1)));
        periods.into_iter().map(cost).collect()
    }

    /// Sixteen tasks that some budget meets.
    fn light_tasks(&mut self) -> Vec<(u64, u64)> {
        let mut periods: Vec<u64> = (0..16).map(|_| self.random.between(30, 60)).collect();
        periods.sort();
        periods.into_iter().map(|p| (p, 1)).collect()
    }

    fn small(&mut self) -> Draft {
        let word = *self.random.pick(&WORDS);
        self.small_of(word)
    }

    fn small_of(&mut self, word: &'static str) -> Draft {
        let longest = *self.random.pick(&[3, 8, 20, 40]);
        let n = if self.random.once_in(10) { 16 } else { self.random.between(1, 5) };
        let tasks = match word {
            "supply" => Vec::new(),
            _ if n == 16 && self.random.once_in(2) => self.light_tasks(),
            _ => self.tasks(n, longest),
        };
        let p = self.random.between(1, 20);
        let lead = match word {
            "supply" => vec![p, self.random.between(1, p), self.random.between(0, 100)],
            "demand" => vec![self.random.between(1, n), self.random.between(0, 100)],
            "check" => vec![p, self.random.between(1, p)],
            _ => vec![p],
        };
        Draft { word, lead, tasks }
    }

    fn limit_tasks(&mut self, n: u64) -> Vec<(u64, u64)> {
        let pool: &[u64] = if self.random.once_in(3) { &[1, 2, 3, 4] } else { &[1, 999, 1999, 2000] };
        let mut periods: Vec<u64> = (0..n).map(|_| *self.random.pick(pool)).collect();
        periods.sort();
        let mut cost = |p: u64| *self.random.pick(&[1, p, (p / 2).max(1), (p / 16).max(1), (p / 40).max(1)]);
        periods.into_iter().map(|p| (p, cost(p))).collect()
    }

    fn at_limits(&mut self) -> Draft {
        let word = *self.random.pick(&WORDS);
        let n = *self.random.pick(&[1, 2, 16]);
        let tasks = if word == "supply" { Vec::new() } else { self.limit_tasks(n) };
        let p = *self.random.pick(&[1, 2, 1000, 1999, 2000]);
        let b = *self.random.pick(&[1, (p / 2).max(1), (p - 1).max(1), p]);
        let t = *self.random.pick(&[0, 1, 2, 1998, 1999, 2000]);
        let lead = match word {
            "supply" => vec![p, b, t],
            "demand" => vec![*self.random.pick(&[1, n]), t],
            "check" => vec![p, b],
            _ => vec![p],
        };
        Draft { word, lead, tasks }
    }

    /// One to three numbers out of range, or a list of the wrong size.
    fn refused(&mut self) -> Draft {
        let mut draft = if self.random.once_in(4) { self.at_limits() } else { self.small() };
        for _ in 0..self.random.between(1, 3) {
            if draft.word == "supply" || self.random.once_in(3) {
                self.spoil_lead(&mut draft);
            } else {
                self.spoil_tasks(&mut draft);
            }
        }
        draft
    }

    fn spoil_lead(&mut self, draft: &mut Draft) {
        let above = match draft.word {
            "demand" => draft.tasks.len() as u64 + 1,
            _ => draft.lead[0].wrapping_add(1),
        };
        let place = self.random.index(draft.lead.len());
        draft.lead[place] = *self.random.pick(&[0, above, 2001, 2000, 65537, 1 << 32, u64::MAX]);
    }

    fn spoil_tasks(&mut self, draft: &mut Draft) {
        let how = self.random.below(8);
        if how == 0 || draft.tasks.is_empty() {
            draft.tasks.clear();
            return;
        }
        let place = self.random.index(draft.tasks.len());
        let (period, cost) = draft.tasks[place];
        draft.tasks[place] = match how {
            1 => (0, cost),
            2 => (2001, cost),
            3 => (period, 0),
            4 => (period, period + 1),
            5 => (period + 1, cost),
            _ => (period, cost),
        };
        if how == 6 {
            draft.tasks.reverse();
        }
        if how == 7 {
            let last = draft.tasks[draft.tasks.len() - 1];
            let n = self.random.between(15, 18) as usize;
            draft.tasks.resize(n, last);
        }
    }

    /// A list that rises, and in it up to three tasks out of range and up to two periods that
    /// fall, at places that are often the first or the last.
    fn bad_tasks(&mut self) -> Draft {
        let word = *self.random.pick(&WORDS[1..]);
        let mut draft = self.small_of(word);
        let n = if self.random.once_in(2) { 16 } else { self.random.between(2, 15) };
        draft.tasks = (0..n).map(|place| (20 + 2 * place, 1)).collect();
        let (wrong, falling) = (self.random.below(4), self.random.below(3));
        (0..wrong).for_each(|_| self.spoil_task(&mut draft.tasks));
        (0..falling).for_each(|_| self.let_fall(&mut draft.tasks));
        draft
    }

    fn spoil_task(&mut self, tasks: &mut [(u64, u64)]) {
        let place = self.place(tasks.len());
        tasks[place] = self.wrong_task(tasks[place].0);
    }

    fn let_fall(&mut self, tasks: &mut [(u64, u64)]) {
        let place = self.place(tasks.len()).max(1);
        tasks[place].0 = tasks[place - 1].0.saturating_sub(1);
    }

    fn place(&mut self, n: usize) -> usize {
        match self.random.below(4) {
            0 => 0,
            1 => n - 1,
            _ => self.random.index(n),
        }
    }

    fn wrong_task(&mut self, period: u64) -> (u64, u64) {
        match self.random.below(6) {
            0 => (0, 1),
            1 => (2001, 1),
            2 => ((1 << 32) + period, 1),
            3 => (period, 0),
            4 => (period, period + 1),
            _ => (period, (1 << 32) + 1),
        }
    }

    /// Leading zeros, and numbers that a narrow type would take for small ones.
    fn odd_numbers(&mut self, mut text: Text) -> Text {
        let place = self.random.index(text.fields.len());
        let field = &mut text.fields[place];
        let small: u128 = String::from_utf8_lossy(field).parse().unwrap();
        *field = match self.random.below(6) {
            0 => format!("0{small}").into_bytes(),
            1 => format!("{}{small}", "0".repeat(40)).into_bytes(),
            2 => ((1u128 << 32) + small).to_string().into_bytes(),
            3 => ((1u128 << 64) + small).to_string().into_bytes(),
            4 => format!("1{}{small}", "0".repeat(60)).into_bytes(),
            _ => format!("{}{small}", "0".repeat(3000)).into_bytes(),
        };
        text
    }

    /// Fields that are missing, too many, empty or no number.
    fn broken(&mut self, mut text: Text) -> Text {
        for _ in 0..self.random.between(1, 2) {
            self.break_field(&mut text);
        }
        text
    }

    fn break_field(&mut self, text: &mut Text) {
        let count = text.fields.len();
        let place = self.random.index(count + 1);
        let bad = self.random.pick(&NO_NUMBERS).to_vec();
        match self.random.below(6) {
            0 => text.fields.truncate(place),
            1 => text.fields.truncate(count.min(2)),
            2 => text.fields.push(bad),
            3 => text.fields.push(b"1".to_vec()),
            4 => text.fields.insert(place, bad),
            _ if place < count => text.fields[place] = bad,
            _ => text.fields.push(Vec::new()),
        }
    }

    fn long_list(&mut self) -> Text {
        let mut text = self.small().text();
        let n = *self.random.pick(&[36, 40, 300, 5000]);
        text.fields.resize(n, b"7".to_vec());
        if self.random.once_in(2) {
            let (low, high) = *self.random.pick(&[(3, 33), (30, n as u64 - 1)]);
            let place = self.random.between(low, high) as usize;
            text.fields[place] = self.random.pick(&NO_NUMBERS).to_vec();
        }
        text
    }

    /// It has no fields; some come with one or more.
    fn help(&mut self) -> Text {
        let several = self.random.between(2, 40) as usize;
        let fields = match self.random.below(6) {
            0..=1 => Vec::new(),
            2 => vec![Vec::new()],
            3 => vec![self.random.below(2002).to_string().into_bytes()],
            4 => vec![self.random.pick(&NO_NUMBERS).to_vec()],
            _ => (0..several).map(|_| self.random.pick(&[&b"1"[..], b"", b"x"]).to_vec()).collect(),
        };
        Text { form: Form::Ordinary, word: b"help".to_vec(), fields }
    }

    fn no_word(&mut self) -> Text {
        let mut text = self.small().text();
        text.word = self.random.pick(&NO_WORDS).to_vec();
        if self.random.once_in(3) {
            text.fields.clear();
        }
        text
    }
}
