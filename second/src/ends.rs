//! `ends-card`, `ends-sizing`, `ends-sales` and `ends-usage`: how a program ends where it cannot read or
//! write. A read or write that fails ends it with a line on standard error, and a failed read is no end
//! of input; a write to a reader that is gone fails like any other. It has to end though
//! more input may come.

use crate::lines::Card;
use crate::pipe;
use crate::sizing::Reader;
use crate::words;
use std::fs::{self, File, OpenOptions};
use std::io::{self, BufRead, BufReader, Write};
use std::os::unix::fs::OpenOptionsExt;
use std::os::unix::process::ExitStatusExt;
use std::process::{Child, ChildStdin, Command, Stdio};
use std::sync::atomic::{AtomicU32, Ordering};
use std::time::{Duration, Instant};

/// Linux's O_NONBLOCK.
const DOES_NOT_BLOCK: i32 = 0o4000;

/// A program, how it calls itself, and input for it.
struct Subject<'a> {
    command: Vec<&'a str>,
    name: &'a str,
    /// Input that is answered before more comes, and its lines.
    answered: Vec<u8>,
    lines: String,
    /// The beginning of more, which only the end of the input would let it answer.
    begun: Vec<u8>,
    /// It writes nothing before its input ends.
    waits: bool,
    limit: Duration,
}

/// How a program ended.
#[derive(PartialEq, Debug)]
struct End {
    output: String,
    complaint: String,
    signal: Option<i32>,
    code: Option<i32>,
}

pub fn card(program: &str, limit: Duration) -> Result<String, String> {
    let answered = words::to_records("admit 0 id 257 T 10 C 3 pr 1\nwake 0 id 257\ntick 3\n")?;
    let lines = Card::new().take(&answered);
    let begun = words::to_records("tick 4\n")?[..7].to_vec();
    let subject =
        Subject { command: vec![program], name: "card", answered, lines, begun, waits: false, limit };
    Ok(format!("ends-card: {} cases agree", subject.try_all()?))
}

pub fn sizing(program: &str, limit: Duration) -> Result<String, String> {
    let answered = b"supply 4 3 7\nbest 5 5 1 10 3\n".to_vec();
    let mut reader = Reader::new();
    let answers = answered.iter().filter_map(|&byte| reader.take(byte));
    let lines = answers.map(|answer| answer.line() + "\n").collect();
    let begun = b"supply 4 3 2".to_vec();
    let subject =
        Subject { command: vec![program], name: "sizing", answered, lines, begun, waits: false, limit };
    Ok(format!("ends-sizing: {} cases agree", subject.try_all()?))
}

/// It says nothing before its reading ends: where a read fails, nothing at all; a bad record ends
/// the reading though the input stays open. What it says is short, so that a reader that goes
/// behind a line may leave it nothing to meet.
pub fn usage(program: &str, limit: Duration) -> Result<String, String> {
    let records = words::to_records("admit 0 id 257 T 10 C 3 pr 1\nwake 0 id 257\ntick 3\n")?;
    let begun = words::to_records("tick 4\n")?[..7].to_vec();
    let bad = [&records[..], &[9, 0, 0]].concat();
    let (command, name, lines) = (vec![program], "usage", String::new());
    let reads = Subject { command, name, answered: records, lines, begun, waits: false, limit };
    let writes =
        Subject { command: vec![program], lines: String::new(), answered: bad, begun: Vec::new(), ..reads };
    Ok(format!("ends-usage: {} cases agree", said_at_the_end(&reads, &writes)?))
}

/// It too says nothing before its reading ends, and only the end of its input ends that.
pub fn sales(program: &str, limit: Duration) -> Result<String, String> {
    let (answered, begun) = (b"least 5\n5 1\n10 3\n".to_vec(), b"15 1".to_vec());
    let (command, name, lines) = (vec![program], "sales", String::new());
    let subject = Subject { command, name, answered, lines, begun, waits: true, limit };
    Ok(format!("ends-sales: {} cases agree", said_at_the_end(&subject, &subject)?))
}

/// A program that says nothing while it reads: one subject whose reads fail, and one whose writes do.
fn said_at_the_end(reads: &Subject, writes: &Subject) -> Cases {
    let cases = reads.failed_reads()? + reads.input_not_there_yet()? + writes.failed_writes()?;
    writes.gone_reader("a reader that is gone", false)?;
    Ok(cases + 1)
}

type Cases = Result<usize, String>;

impl Subject<'_> {
    fn try_all(&self) -> Cases {
        Ok(self.failed_reads()?
            + self.input_not_there_yet()?
            + self.failed_writes()?
            + self.gone_readers()?)
    }

    /// The same without one descriptor: `closing` says it as a shell does.
    fn without<'b>(&'b self, closing: &'b str) -> Subject<'b> {
        let mut command = vec!["sh", "-c", closing, "sh"];
        command.extend(&self.command);
        Subject {
            command,
            lines: self.lines.clone(),
            answered: self.answered.clone(),
            begun: Vec::new(),
            ..*self
        }
    }

    /// What it wrote, as far as it is here to be seen, its complaint and its status.
    fn ended(&self, case: &str, mut child: Child) -> Result<End, String> {
        if !pipe::has_ended(&mut child, Instant::now() + self.limit) {
            child.kill().ok();
            child.wait().ok();
            return Err(format!("{case}: {} has not ended", self.name));
        }
        let status = child.wait().map_err(told)?;
        let output = child.stdout.take().map_or(Ok(String::new()), io::read_to_string).map_err(told)?;
        let complaint = child.stderr.take().map_or(Ok(String::new()), io::read_to_string).map_err(told)?;
        Ok(End { output, complaint, signal: status.signal(), code: status.code() })
    }

    fn failed(&self, output: &str, what: &str) -> End {
        let complaint = format!("{}: a {what} failed\n", self.name);
        End { output: output.to_string(), complaint, signal: None, code: Some(0) }
    }

    fn try_input(&self, case: &str, input: Stdio, output: &str) -> Result<(), String> {
        let child = pipe::start(&self.command, input, Stdio::piped())?;
        agree(case, &self.ended(case, child)?, &self.failed(output, "read"))
    }

    fn failed_reads(&self) -> Cases {
        let written_only = OpenOptions::new().write(true).open("/dev/null").map_err(told)?;
        self.try_input("a directory as input", File::open("/").map_err(told)?.into(), "")?;
        self.try_input("input open for writing alone", written_only.into(), "")?;
        self.without("exec \"$@\" <&-").try_input("no input at all", Stdio::null(), "")?;
        Ok(3)
    }

    /// A pipe that does not block, with nothing in it behind some input: a host that has not
    /// come so far has not ended its input.
    fn input_not_there_yet(&self) -> Cases {
        let with_more = [&self.answered[..], &self.begun].concat();
        let cases = [
            ("input that does not block, nothing there", &[][..], ""),
            ("input that does not block, behind whole ones", &self.answered, &self.lines),
            ("input that does not block, behind a begun one", &with_more, &self.lines),
        ];
        for (case, sent, lines) in cases {
            let (its, mut mine) = named_pipe(DOES_NOT_BLOCK, 0)?;
            mine.write_all(sent).map_err(told)?;
            self.try_input(case, its.into(), lines)?;
            drop(mine);
        }
        Ok(cases.len())
    }

    /// The input, as it stays open for a program that does not wait for its end.
    fn left_open(&self, input: ChildStdin) -> Option<ChildStdin> {
        (!self.waits).then_some(input)
    }

    fn try_output(&self, case: &str, output: Stdio) -> Result<(), String> {
        let mut child = pipe::start(&self.command, Stdio::piped(), output)?;
        let mut to = child.stdin.take().expect("a pipe was asked for");
        to.write_all(&self.answered).map_err(told)?;
        let _to = self.left_open(to);
        agree(case, &self.ended(case, child)?, &self.failed("", "write"))
    }

    fn failed_writes(&self) -> Cases {
        let full_disk = OpenOptions::new().write(true).open("/dev/full").map_err(told)?;
        self.try_output("a full disk", full_disk.into())?;
        self.try_output("output open for reading alone", File::open("/dev/null").map_err(told)?.into())?;
        self.without("exec \"$@\" >&-").try_output("no output at all", Stdio::null())?;
        let (mine, mut its) = named_pipe(0, DOES_NOT_BLOCK)?;
        while its.write(&[b'x'; 4096]).is_ok() {}
        self.try_output("a full pipe that does not block", its.into())?;
        drop(mine);
        Ok(4)
    }

    /// The reader goes before the first line, or behind it.
    fn gone_readers(&self) -> Cases {
        self.gone_reader("a reader that is gone", false)?;
        self.gone_reader("a reader that goes behind a line", true)?;
        Ok(2)
    }

    fn gone_reader(&self, case: &str, reads: bool) -> Result<(), String> {
        let mut child = pipe::start(&self.command, Stdio::piped(), Stdio::piped())?;
        let mut to = child.stdin.take().expect("a pipe was asked for");
        let mut from = BufReader::new(child.stdout.take().expect("a pipe was asked for"));
        if reads {
            to.write_all(&self.answered).map_err(told)?;
            from.read_line(&mut String::new()).map_err(told)?;
        }
        drop(from);
        // One that has met the closed pipe already takes no more.
        to.write_all(&self.answered).ok();
        let _to = self.left_open(to);
        agree(case, &self.ended(case, child)?, &self.failed("", "write"))
    }
}

fn told(error: io::Error) -> String {
    error.to_string()
}

fn agree(case: &str, end: &End, meant: &End) -> Result<(), String> {
    if end == meant {
        return Ok(());
    }
    Err(format!("{case}:\n  program: {end:?}\n  meant:   {meant:?}"))
}

/// A pipe's two ends, each opened with its flags.
fn named_pipe(reading: i32, writing: i32) -> Result<(File, File), String> {
    static MADE: AtomicU32 = AtomicU32::new(0);
    let name = format!("second-{}-{}", std::process::id(), MADE.fetch_add(1, Ordering::Relaxed));
    let path = std::env::temp_dir().join(name);
    let made = Command::new("mkfifo").arg(&path).status().map_err(told)?;
    if !made.success() {
        return Err(format!("mkfifo ends with {made}"));
    }
    let ends = || -> io::Result<(File, File)> {
        // Open both ways it waits for nobody, and neither do the ends beside it.
        let _both = OpenOptions::new().read(true).write(true).open(&path)?;
        let from = OpenOptions::new().read(true).custom_flags(reading).open(&path)?;
        let to = OpenOptions::new().write(true).custom_flags(writing).open(&path)?;
        Ok((from, to))
    };
    let ends = ends().map_err(told);
    fs::remove_file(&path).ok();
    ends
}

#[cfg(test)]
mod tests {
    use super::*;

    /// Answers each line by itself, and ends as the proved programs do.
    const LOOP: &str = "while IFS= read -r line; do echo \"$line\" 2>/dev/null || WRITE; done";
    const READ: &str = "cat >/dev/null 2>&1 || echo 'echo: a read failed' >&2";
    const WRITE: &str = "{ echo 'echo: a write failed' >&2; exit 0; }";

    fn script(first: &str, write: &str, last: &str) -> String {
        format!("trap '' PIPE; {first} {}; {last}; true", LOOP.replace("WRITE", write))
    }

    fn waiting(script: &str, limit: Duration) -> Subject<'_> {
        Subject {
            command: vec!["sh", "-c", script],
            name: "echo",
            answered: b"a\nb\n".to_vec(),
            lines: "a\nb\n".to_string(),
            begun: b"c".to_vec(),
            waits: false,
            limit,
        }
    }

    fn subject(script: &str) -> Subject<'_> {
        waiting(script, pipe::PATIENCE)
    }

    /// The fault is in a case that begins so.
    fn is_seen(cases: Cases, case: &str) {
        let fault = cases.unwrap_err();
        assert!(fault.starts_with(case), "{fault}");
    }

    fn is_waited_for(script: &str, cases: impl Fn(&Subject<'_>) -> Cases) {
        let fault = cases(&waiting(script, Duration::from_secs(2))).unwrap_err();
        assert!(fault.ends_with("has not ended"), "{fault}");
    }

    #[test]
    fn one_that_ends_as_it_should_passes() {
        assert_eq!(subject(&script("", WRITE, READ)).try_all(), Ok(12));
    }

    /// One that reads all before it writes, and what it does where that fails.
    fn at_the_end(failed_read: &str) -> String {
        let write = WRITE.replace("exit 0", "true");
        format!("trap '' PIPE; all=$(cat 2>/dev/null) || {{ {failed_read} }}; echo \"$all\" 2>/dev/null || {write}")
    }

    fn waiting_for_the_end(script: &str) -> Subject<'_> {
        Subject { lines: String::new(), waits: true, ..subject(script) }
    }

    #[test]
    fn one_that_writes_at_the_end_passes() {
        let right = at_the_end("echo 'echo: a read failed' >&2; exit 0;");
        let right = waiting_for_the_end(&right);
        assert_eq!(said_at_the_end(&right, &right), Ok(11));
        let silent = at_the_end("exit 0;");
        let silent = waiting_for_the_end(&silent);
        is_seen(said_at_the_end(&silent, &silent), "a directory as input");
        let goes_on = at_the_end("true;");
        let goes_on = waiting_for_the_end(&goes_on);
        is_seen(said_at_the_end(&goes_on, &goes_on), "a directory as input");
    }

    #[test]
    fn a_failed_read_taken_for_the_end_is_seen() {
        let silent = script("", WRITE, "true");
        is_seen(subject(&silent).failed_reads(), "a directory as input");
        is_seen(subject(&silent).input_not_there_yet(), "input that does not block, nothing there");
        let ends_the_begun = script("", WRITE, &format!("{READ}; [ -z \"$line\" ] || echo \"$line\""));
        assert!(subject(&ends_the_begun).failed_reads().is_ok());
        is_seen(
            subject(&ends_the_begun).input_not_there_yet(),
            "input that does not block, behind a begun one",
        );
        let tries_again = script("", WRITE, "while ! cat 2>/dev/null; do sleep 0.1; done");
        is_waited_for(&tries_again, |subject| subject.input_not_there_yet());
    }

    #[test]
    fn a_failed_write_passed_over_is_seen() {
        is_seen(subject(&script("", "exit 0", READ)).failed_writes(), "a full disk");
        let fails = script("", "{ echo 'echo: a write failed' >&2; exit 1; }", READ);
        is_seen(subject(&fails).failed_writes(), "a full disk");
        let goes_on = script("", "echo 'echo: a write failed' >&2", READ);
        is_waited_for(&goes_on, |subject| subject.failed_writes());
    }

    #[test]
    fn another_end_for_a_gone_reader_is_seen() {
        let by_signal = script("trap - PIPE;", WRITE, READ);
        assert!(subject(&by_signal).failed_writes().is_ok());
        is_seen(subject(&by_signal).gone_readers(), "a reader that is gone");
        let silent = script("", "exit 0", READ);
        is_seen(subject(&silent).gone_readers(), "a reader that is gone");
        let goes_on = script("", "true", READ);
        is_waited_for(&goes_on, |subject| subject.gone_readers());
    }
}
