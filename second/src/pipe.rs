//! Runs another program over pipes.

use std::io::{self, BufRead, BufReader, Read, Write};
use std::os::fd::OwnedFd;
use std::os::unix::net::UnixDatagram;
use std::process::{Child, Command, Stdio};
use std::sync::mpsc;
use std::time::{Duration, Instant};

pub fn start(command: &[&str], input: Stdio, output: Stdio) -> Result<Child, String> {
    let program = command[0];
    Command::new(program)
        .args(&command[1..])
        .stdin(input)
        .stdout(output)
        .stderr(Stdio::piped())
        .spawn()
        .map_err(|error| format!("{program} does not start: {error}"))
}

/// Longer than any program here takes for one input.
const LONGEST_RUN: Duration = Duration::from_secs(300);

/// Longer than any program here takes for one answer, or to end once it has its reason.
pub const PATIENCE: Duration = Duration::from_secs(30);

/// Ends the program if nothing is sent before the time is up.
fn watch(process: u32, done: &mpsc::Receiver<()>) {
    if let Err(mpsc::RecvTimeoutError::Timeout) = done.recv_timeout(LONGEST_RUN) {
        Command::new("kill").args(["-9", &process.to_string()]).status().ok();
    }
}

/// A program that ends by a signal or complains is no good, whatever it wrote before.
fn judge(child: &mut Child, program: &str) -> Result<(), String> {
    let mut complaint = String::new();
    let mut from = child.stderr.take().expect("a pipe was asked for");
    from.read_to_string(&mut complaint).map_err(|error| format!("{program}: {error}"))?;
    let status = child.wait().map_err(|error| format!("{program}: {error}"))?;
    if status.success() && complaint.is_empty() {
        return Ok(());
    }
    Err(format!("{program} ends with {status}: {complaint}"))
}

/// All that the program writes for this input. The input goes from its own thread, so
/// that neither side waits for the other; a program may stop reading before its end. One
/// that writes far too much, or takes far too long, is ended.
pub fn feed(program: &str, input: &[u8]) -> Result<Vec<u8>, String> {
    feed_command(&[program], input)
}

pub fn feed_command(command: &[&str], input: &[u8]) -> Result<Vec<u8>, String> {
    let program = command[0];
    let mut child = start(command, Stdio::piped(), Stdio::piped())?;
    let mut to = child.stdin.take().expect("a pipe was asked for");
    let from = child.stdout.take().expect("a pipe was asked for");
    let most = 64 * input.len() as u64 + 4096;
    let mut output = Vec::new();
    let process = child.id();
    let judged = std::thread::scope(|scope| {
        let (done, wait) = mpsc::channel();
        scope.spawn(move || to.write_all(input));
        scope.spawn(move || watch(process, &wait));
        let read = from.take(most).read_to_end(&mut output);
        if output.len() as u64 == most {
            child.kill().ok();
        }
        let judged = judge(&mut child, program);
        drop(done);
        read.map_err(|error| format!("{program}: reading failed: {error}")).and(judged)
    });
    judged.map(|()| output)
}

/// Bytes that go alone, and the number of lines that must come before more goes.
pub type Part = (Vec<u8>, usize);

/// Talks with the program over a pipe, which closes behind the last part.
pub fn talk(command: &[&str], parts: &[Part]) -> Result<Vec<u8>, String> {
    let (mut talk, mut to) = Talk::over_a_pipe(command, PATIENCE)?;
    talk.send_all(parts, |bytes| to.write_all(bytes))?;
    drop(to);
    talk.end()
}

/// As `talk`, but the pipe stays open: the program has to end by itself.
pub fn talk_left_open(command: &[&str], parts: &[Part], limit: Duration) -> Result<Vec<u8>, String> {
    let (mut talk, mut to) = Talk::over_a_pipe(command, limit)?;
    talk.send_all(parts, |bytes| to.write_all(bytes))?;
    let said = talk.end();
    drop(to);
    said
}

/// As `talk_left_open`, but each part is what one read gives, whatever stands behind it,
/// and an empty part is a read of nothing, the end of input.
pub fn talk_in_reads(command: &[&str], parts: &[Part], limit: Duration) -> Result<Vec<u8>, String> {
    let failed = |error: io::Error| format!("no pair of sockets: {error}");
    let (mine, its) = UnixDatagram::pair().map_err(failed)?;
    mine.set_write_timeout(Some(limit)).map_err(failed)?;
    let mut talk = Talk::start(command, OwnedFd::from(its).into(), limit)?;
    let said = talk.send_all(parts, |bytes| mine.send(bytes).map(drop)).and_then(|()| talk.end());
    // Whoever still reads has no other way to learn that this end closes.
    mine.send(&[]).ok();
    said
}

/// A program under way, and what it has written so far.
struct Talk {
    program: String,
    child: Child,
    lines: mpsc::Receiver<Vec<u8>>,
    said: Vec<u8>,
    limit: Duration,
}

impl Talk {
    fn start(command: &[&str], input: Stdio, limit: Duration) -> Result<Talk, String> {
        let mut child = start(command, input, Stdio::piped())?;
        let from = child.stdout.take().expect("a pipe was asked for");
        let (send, lines) = mpsc::channel();
        std::thread::spawn(move || {
            for line in lines_of(from) {
                if send.send(line).is_err() {
                    return;
                }
            }
        });
        Ok(Talk { program: command[0].to_string(), child, lines, said: Vec::new(), limit })
    }

    fn over_a_pipe(command: &[&str], limit: Duration) -> Result<(Talk, impl Write), String> {
        let mut talk = Talk::start(command, Stdio::piped(), limit)?;
        let to = talk.child.stdin.take().expect("a pipe was asked for");
        Ok((talk, to))
    }

    /// A program that has ended takes no more; its lines show whether it should have.
    fn send_all(
        &mut self,
        parts: &[Part],
        mut send: impl FnMut(&[u8]) -> io::Result<()>,
    ) -> Result<(), String> {
        for (place, (bytes, awaited)) in parts.iter().enumerate() {
            if send(bytes).is_err() {
                return Ok(());
            }
            for _ in 0..*awaited {
                let Ok(line) = self.lines.recv_timeout(self.limit) else {
                    return self.give_up(&format!("no answer to part {} while its input is open", place + 1));
                };
                self.said.extend(line);
            }
        }
        Ok(())
    }

    /// All that it wrote, if it ends before the time is up.
    fn end(mut self) -> Result<Vec<u8>, String> {
        let latest = Instant::now() + self.limit;
        while let Ok(line) = self.lines.recv_timeout(latest.saturating_duration_since(Instant::now())) {
            self.said.extend(line);
        }
        if !has_ended(&mut self.child, latest) {
            self.give_up(&format!("has not ended behind {:?}", last_line(&self.said)))?;
        }
        judge(&mut self.child, &self.program).map(|()| self.said)
    }

    fn give_up(&mut self, why: &str) -> Result<(), String> {
        self.child.kill().ok();
        self.child.wait().ok();
        Err(format!("{}: {why}", self.program))
    }
}

/// Waits for its end, and no longer than to the moment given.
pub fn has_ended(child: &mut Child, latest: Instant) -> bool {
    while !matches!(child.try_wait(), Ok(Some(_))) {
        if Instant::now() > latest {
            return false;
        }
        std::thread::sleep(Duration::from_millis(1));
    }
    true
}

/// The lines with their newlines; the last may have none.
fn lines_of(from: impl Read) -> impl Iterator<Item = Vec<u8>> {
    let mut from = BufReader::new(from);
    std::iter::from_fn(move || {
        let mut line = Vec::new();
        let count = from.read_until(b'\n', &mut line).ok()?;
        (count > 0).then_some(line)
    })
}

fn last_line(said: &[u8]) -> String {
    String::from_utf8_lossy(said).lines().last().unwrap_or("").to_string()
}

#[cfg(test)]
mod tests {
    use super::*;

    fn shell(script: &str) -> Result<Vec<u8>, String> {
        feed_command(&["sh", "-c", script], b"some input")
    }

    #[test]
    fn a_program_that_crashes_or_complains_is_no_good() {
        assert_eq!(shell("cat"), Ok(b"some input".to_vec()));
        assert_eq!(shell("echo done; exec true"), Ok(b"done\n".to_vec()));
        assert!(shell("cat; kill -9 $$").is_err());
        assert!(shell("cat; echo no >&2").is_err());
        assert!(shell("cat; exit 1").is_err());
        assert!(shell("yes").is_err());
    }

    #[test]
    fn a_talk_sees_silence_and_crashes() {
        let parts = [(b"a\n".to_vec(), 1), (b"b\n".to_vec(), 1)];
        assert_eq!(talk(&["cat"], &parts), Ok(b"a\nb\n".to_vec()));
        assert!(talk(&["false"], &parts).is_err());
    }

    const SHORT: Duration = Duration::from_secs(2);

    /// Reads one line, answers it and ends.
    const STOPS: [&str; 3] = ["sh", "-c", "read line; echo $line"];
    /// Reads on behind its answer.
    const READS_ON: [&str; 3] = ["sh", "-c", "read line; echo $line; read line; true"];

    #[test]
    fn a_program_that_reads_on_is_seen_while_its_input_is_open() {
        let (one, more) = ((b"a\n".to_vec(), 1), (b"b\n".to_vec(), 0));
        for parts in [vec![one.clone()], vec![one.clone(), more]] {
            assert_eq!(talk_left_open(&STOPS, &parts, PATIENCE), Ok(b"a\n".to_vec()));
        }
        assert_eq!(talk(&READS_ON, &[one.clone()]), Ok(b"a\n".to_vec()));
        let seen = talk_left_open(&READS_ON, &[one], SHORT).unwrap_err();
        assert!(seen.contains("has not ended behind \"a\""), "{seen}");
    }

    /// `dd` reads as often as it is told to.
    #[test]
    fn a_part_is_one_read_and_an_empty_one_the_end() {
        let parts = ["ab\n", "c", "d\n", "", "e\n"].map(|part| (part.as_bytes().to_vec(), 0));
        assert_eq!(talk_in_reads(&["cat"], &parts, PATIENCE), Ok(b"ab\ncd\n".to_vec()));
        let two_reads = ["dd", "bs=512", "count=2", "status=none"];
        assert_eq!(talk_in_reads(&two_reads, &parts, PATIENCE), Ok(b"ab\nc".to_vec()));
        let seen = talk_in_reads(&["cat"], &parts[..3], SHORT).unwrap_err();
        assert!(seen.contains("has not ended"), "{seen}");
    }
}
