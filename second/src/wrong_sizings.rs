//! Sizings with one wrong row or place each, or one wrong rule of lines, to see that the
//! comparison finds it.

use crate::compare_sizing::{answer_alone, ask_all, first_difference, Asked, ENDS};
use crate::long_lines;
use crate::query_cases::{bare, take_apart};
use crate::reached::Reached;
use crate::refusal::Refusal;
use crate::sizing::{Answer, Reader, HELP};

/// The tasks of a line that 31 or 32 refuses.
fn tasks(line: &[u8]) -> Vec<(u64, u64)> {
    let (_, list) = take_apart(bare(line)).lead_and_list();
    let tasks = list.lend();
    tasks.periods.iter().copied().zip(tasks.costs.iter().copied()).collect()
}

/// The places, counted from 1, of the tasks that meet each fault.
struct Places {
    periods: Vec<u64>,
    costs: Vec<u64>,
    both: Vec<u64>,
    falls: Vec<u64>,
}

fn places(tasks: &[(u64, u64)]) -> Places {
    let at = |fault: &dyn Fn(usize) -> bool| {
        (0..tasks.len()).filter(|&k| fault(k)).map(|k| k as u64 + 1).collect::<Vec<u64>>()
    };
    let period = |k: usize| tasks[k].0 < 1 || tasks[k].0 > 2000;
    let cost = |k: usize| tasks[k].1 < 1 || tasks[k].1 > tasks[k].0;
    Places {
        periods: at(&period),
        costs: at(&cost),
        both: at(&|k| period(k) || cost(k)),
        falls: at(&|k| k > 0 && tasks[k].0 < tasks[k - 1].0),
    }
}

/// Another refusal for one with these places, if it is of those that the fault concerns.
type Wrong = fn(Refusal, &Places) -> Option<Refusal>;

fn told(number: u32, detail: Option<&u64>) -> Option<Refusal> {
    detail.map(|&detail| Refusal { number, detail })
}

fn of_row(number: u32, right: Refusal, detail: Option<&u64>) -> Option<Refusal> {
    told(number, detail).filter(|_| right.number == number)
}

const WRONG: [(&str, Wrong); 10] = [
    ("31 has no detail", |right, _| of_row(31, right, Some(&0))),
    ("32 has no detail", |right, _| of_row(32, right, Some(&0))),
    ("31 counts from 0", |right, _| of_row(31, right, Some(&(right.detail - 1)))),
    ("32 names the task before", |right, _| of_row(32, right, Some(&(right.detail - 1)))),
    ("31 names the last such task", |right, places| of_row(31, right, places.both.last())),
    ("32 names the last such task", |right, places| of_row(32, right, places.falls.last())),
    ("31 looks at all periods first", |right, places| of_row(31, right, places.periods.first())),
    ("31 looks at all costs first", |right, places| of_row(31, right, places.costs.first())),
    ("32 is given before 31", |_, places| told(32, places.falls.first())),
    ("32 is given where it comes first", |right, places| {
        told(32, places.falls.first().filter(|&&falls| falls < right.detail))
    }),
];

fn line(asked: &Asked, wrong: Wrong) -> Option<String> {
    let answer = match asked.answer.as_ref()? {
        Answer::No(right) if right.number == 31 || right.number == 32 => {
            Answer::No(wrong(*right, &places(&tasks(&asked.line))).unwrap_or(*right))
        }
        answer => answer.clone(),
    };
    Some(answer.line() + "\n")
}

fn is_seen(asked: &[Asked], wrong: Wrong) -> bool {
    let output: String = asked.iter().filter_map(|asked| line(asked, wrong)).collect();
    first_difference(asked, output.as_bytes()).is_some()
}

#[test]
fn every_wrong_place_is_seen() {
    let asked = ask_all(1, 20_000, &mut Reached::default());
    assert!(!is_seen(&asked, |_, _| None));
    // The places are counted here once more, and are the right ones.
    assert!(!is_seen(&asked, |_, places| told(31, places.both.first()).or(told(32, places.falls.first()))));
    for (what, wrong) in WRONG {
        assert!(is_seen(&asked, wrong), "{what}");
    }
}

/// A line without its newline, and whether it has one.
#[derive(Clone, Copy)]
struct Line<'a> {
    bytes: &'a [u8],
    ended: bool,
}

impl Line<'_> {
    fn is_long(self) -> bool {
        self.bytes.len() > 65_535
    }

    fn is_help_with_a_field(self) -> bool {
        self.bytes.starts_with(b"help ") && !self.is_long()
    }
}

/// Other text for a line, if it is of those that the fault concerns.
type WrongLine = fn(Line) -> Option<String>;

const BAD_LINE: &str = "bad line\n";

fn text(answer: Option<Answer>) -> String {
    answer.map_or(String::new(), |answer| answer.line() + "\n")
}

/// The answer to bytes of one line, which has any length.
fn whatever_its_length(bytes: &[u8]) -> String {
    let mut reader = Reader::up_to(u64::MAX);
    assert!(bytes.iter().all(|&byte| reader.take(byte).is_none()));
    text(reader.end())
}

fn bad_line_if(bad: bool) -> Option<String> {
    bad.then(|| BAD_LINE.to_string())
}

fn read_if(read: bool, line: Line) -> Option<String> {
    read.then(|| whatever_its_length(line.bytes))
}

/// A bad line, and then the bytes behind so many of it as if they were another.
fn and_the_rest(line: Line, used: usize) -> Option<String> {
    line.is_long().then(|| BAD_LINE.to_string() + &whatever_its_length(&line.bytes[used..]))
}

const WRONG_LENGTHS: [(&str, WrongLine); 15] = [
    ("the longest line has 65534 bytes", |line| bad_line_if(line.bytes.len() == 65_535)),
    ("the longest line has 65536 bytes", |line| read_if(line.bytes.len() == 65_536, line)),
    ("lines have any length", |line| read_if(line.is_long(), line)),
    ("a bad line is told twice", |line| line.is_long().then(|| BAD_LINE.repeat(2))),
    ("a bad line is told by every 65536 bytes", |line| {
        line.is_long().then(|| BAD_LINE.repeat(line.bytes.len() / 65_536))
    }),
    ("a bad line is not told", |line| line.is_long().then(String::new)),
    ("a bad line is told as a bad word", |line| line.is_long().then(|| text(Some(Answer::BadWord)))),
    ("what is behind 65535 bytes is a new line", |line| and_the_rest(line, 65_535)),
    ("what is behind 65536 bytes is a new line", |line| and_the_rest(line, 65_536)),
    ("only the rest of a long line is read", |line| {
        line.is_long().then(|| whatever_its_length(&line.bytes[65_535..]))
    }),
    ("only the front of a long line is read", |line| {
        line.is_long().then(|| whatever_its_length(&line.bytes[..65_535]))
    }),
    ("a carriage return at the end does not count", |line| {
        read_if(line.bytes.len() == 65_536 && line.bytes.ends_with(b"\r"), line)
    }),
    ("a carriage return counts twice", |line| {
        bad_line_if(line.bytes.ends_with(b"\r") && line.bytes.len() == 65_535)
    }),
    ("a newline counts", |line| bad_line_if(line.ended && line.bytes.len() == 65_535)),
    ("a longest line keeps its carriage return", |line| {
        let longest = line.bytes.len() == 65_535 && line.bytes.ends_with(b"\r");
        longest.then(|| whatever_its_length(&[line.bytes, b"\r"].concat()))
    }),
];

/// These are right but where a line has no newline.
const WRONG_LAST_LENGTHS: [(&str, WrongLine); 3] = [
    ("a long line at the end is not told", |line| (!line.ended && line.is_long()).then(String::new)),
    ("a long line at the end is read", |line| read_if(!line.ended && line.is_long(), line)),
    ("a longest line at the end is not told", |line| {
        (!line.ended && line.bytes.len() == 65_535).then(String::new)
    }),
];

const WRONG_HELPS: [(&str, WrongLine); 7] = [
    ("help with a field is help", |line| line.is_help_with_a_field().then(|| text(Some(Answer::Help)))),
    ("help with an empty field is help", |line| (line.bytes == b"help ").then(|| text(Some(Answer::Help)))),
    ("help's field has the number 0", |line| {
        line.is_help_with_a_field().then(|| text(Some(Answer::BadField(0))))
    }),
    ("help's last field is the bad one", |line| {
        let fields = line.bytes.iter().filter(|&&byte| byte == b' ').count() as u64;
        line.is_help_with_a_field().then(|| text(Some(Answer::BadField(fields))))
    }),
    ("help's first field that is no number is the bad one", |line| {
        let no_digits = |field: &[u8]| field.is_empty() || !field.iter().all(u8::is_ascii_digit);
        let bytes = line.bytes.strip_suffix(b"\r").unwrap_or(line.bytes);
        let place = bytes.split(|&byte| byte == b' ').skip(1).position(no_digits)?;
        line.is_help_with_a_field().then(|| text(Some(Answer::BadField(place as u64 + 1))))
    }),
    ("help is no word", |line| (line.bytes == b"help").then(|| text(Some(Answer::BadWord)))),
    ("help has two lines", |line| (line.bytes == b"help").then(|| HELP.replace(" (", "\n(") + "\n")),
];

/// What a sizing with the fault writes for one line, of which the answer is known.
fn written(line: &[u8], answer: Option<&Answer>, wrong: WrongLine) -> String {
    let bare = line.strip_suffix(b"\n");
    let told = wrong(Line { bytes: bare.unwrap_or(line), ended: bare.is_some() });
    told.unwrap_or_else(|| text(answer.cloned()))
}

fn is_seen_in_lines(asked: &[Asked], wrong: WrongLine) -> bool {
    let output: String =
        asked.iter().map(|asked| written(&asked.line, asked.answer.as_ref(), wrong)).collect();
    first_difference(asked, output.as_bytes()).is_some()
}

/// The lines of an input, each with its answer.
fn lines_of(input: &[u8]) -> Vec<Asked> {
    let lines = input.split_inclusive(|&byte| byte == b'\n');
    lines.map(|line| Asked { line: line.to_vec(), answer: answer_alone(line) }).collect()
}

#[test]
fn every_wrong_rule_of_lines_is_seen() {
    let long = long_lines::inputs().into_iter().map(|long| long.input);
    let alone: Vec<Vec<Asked>> =
        ENDS.iter().map(|input| input.to_vec()).chain(long).map(|input| lines_of(&input)).collect();
    let asked = ask_all(1, 20_000, &mut Reached::default());
    let is_seen_alone = |wrong| alone.iter().any(|input| is_seen_in_lines(input, wrong));
    assert!(!is_seen_alone(|_| None) && !is_seen_in_lines(&asked, |_| None));
    for (what, wrong) in WRONG_LENGTHS.into_iter().chain(WRONG_HELPS) {
        assert!(is_seen_in_lines(&asked, wrong), "among the queries: {what}");
    }
    for (what, wrong) in WRONG_LENGTHS.into_iter().chain(WRONG_LAST_LENGTHS).chain(WRONG_HELPS) {
        assert!(is_seen_alone(wrong), "alone: {what}");
    }
}
