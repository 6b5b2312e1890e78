//! The comparisons, tried on right programs and on wrong ones.

use std::process::Command;

/// What a command of second says to a stand-in, by exit status.
fn said(words: &[&str], stand_in: &str, variables: &[(&str, &str)]) -> Result<String, String> {
    let second = env!("CARGO_BIN_EXE_second");
    let program = format!("{}/tests/stand_ins/{stand_in}", env!("CARGO_MANIFEST_DIR"));
    let done = Command::new(second)
        .args(words)
        .arg(&program)
        .env("SECOND", second)
        .envs(variables.iter().copied())
        .output()
        .expect("second starts");
    let text = |bytes: Vec<u8>| String::from_utf8(bytes).expect("text");
    match done.status.success() {
        true => Ok(text(done.stdout)),
        false => Err(text(done.stderr)),
    }
}

/// What `compare-card` says to a stand-in that goes on so behind a line.
fn compared(stand_in: &str, wait: &str, after: &str, then: &str) -> Result<String, String> {
    let words = ["compare-card", "--records", "20000", "--wait", wait];
    said(&words, stand_in, &[("AFTER", after), ("THEN", then)])
}

const ENOUGH: &str = "60";
const SHORT: &str = "6";

/// Every card that goes on so behind 20, 21 or 22 is found out, in this way.
fn is_seen(numbers: &[&str], then: &str, way: &str, what: &str) {
    for after in numbers {
        let fault = compared("reads_on", SHORT, after, then).unwrap_err();
        assert!(fault.contains(way) && fault.contains(what), "{after}: {fault}");
    }
}

#[test]
fn a_right_card_agrees() {
    for stand_in in ["card", "reads_on"] {
        let said = compared(stand_in, ENOUGH, "no such number", "").unwrap();
        assert!(said.contains("records agree"), "{stand_in}: {said}");
    }
}

#[test]
fn a_card_that_reads_on_is_seen() {
    is_seen(&["20", "21", "22"], "cat >/dev/null", "in parts, and more behind the end", "has not ended");
}

#[test]
fn a_card_that_reads_once_more_is_seen() {
    let once = "dd bs=65536 count=1 status=none of=/dev/null";
    is_seen(&["20", "21", "22"], once, "in one part, left open", "has not ended");
}

#[test]
fn a_card_that_reads_on_from_a_pipe_alone_is_seen() {
    let from_a_pipe = "sh -c '[ ! -p /dev/stdin ] || exec cat >/dev/null'";
    is_seen(&["21", "22"], from_a_pipe, "on an open pipe, and no more", "has not ended");
}

#[test]
fn a_card_that_answers_on_is_seen() {
    is_seen(&["21", "22"], "\"$SECOND\" card", "record by record", "more lines than records");
}

#[test]
fn a_card_that_loses_the_rest_of_a_part_is_seen() {
    let fault = compared("loses_bytes", SHORT, "", "").unwrap_err();
    assert!(fault.contains("in parts"), "{fault}");
}

#[test]
fn a_card_that_answers_late_is_seen() {
    let fault = compared("answers_late", SHORT, "", "").unwrap_err();
    assert!(fault.contains("record by record") && fault.contains("no answer"), "{fault}");
}

#[test]
fn a_right_sizing_agrees_and_one_that_reads_on_is_seen() {
    let said = |stand_in, wait| said(&["compare-sizing", "--wait", wait], stand_in, &[]);
    let right = said("sizing", ENOUGH).unwrap();
    assert!(right.contains("queries agree"), "{right}");
    let fault = said("sizing_reads_on", SHORT).unwrap_err();
    assert!(fault.contains("has not ended"), "{fault}");
}

/// What `outside` says to a card that reads the records otherwise.
fn seen_from_outside(edit: &str) -> Result<String, String> {
    said(&["outside", "--runs", "400"], "reads_otherwise", &[("EDIT", edit)])
}

#[test]
fn demand_3_of_a_right_card_holds_from_outside() {
    let said = seen_from_outside("").unwrap();
    assert!(said.contains("usable ticks and ") && said.contains(" totals agree"), "{said}");
}

#[test]
fn a_card_that_takes_one_kind_for_another_is_seen_from_outside() {
    for edit in ["s/kind 2$/kind 1/", "s/kind 1$/kind 2/", "s/kind 1$/kind 0/", "s/kind 2$/kind 0/"] {
        let fault = seen_from_outside(edit).unwrap_err();
        let seen = ["usable ticks", "told to come back", "meant is no 9"].iter().any(|by| fault.contains(by));
        assert!(seen, "{edit}: {fault}");
    }
}

#[test]
fn a_card_that_lets_a_refilled_tenant_have_the_whole_period_is_seen_from_outside() {
    for kind in ["1", "2"] {
        let whole = format!("s/T ([0-9]+) C [0-9]+ (pr [0-9]+ kind {kind})$/T \\1 C \\1 \\2/");
        let fault = seen_from_outside(&whole).unwrap_err();
        assert!(fault.contains("usable ticks") || fault.contains("it may hold"), "{kind}: {fault}");
    }
}

#[test]
fn a_card_that_admits_an_unknown_kind_is_seen_from_outside() {
    let fault = seen_from_outside("s/kind (3|255)$/kind 1/").unwrap_err();
    assert!(fault.contains("meant is no 10 0"), "{fault}");
}

/// What a command says to the second program's own answers, changed so.
fn answered_otherwise(words: &[&str], command: &str, edit: &str) -> Result<String, String> {
    said(words, "answers_otherwise", &[("COMMAND", command), ("EDIT", edit)])
}

const ON_CARD: [&str; 5] = ["compare-card", "--records", "20000", "--wait", ENOUGH];

/// 5 as it was before request 2, 11 and 12 for each other, and no offset or another one.
#[test]
fn a_card_with_another_number_or_detail_is_seen() {
    let edits = [
        ("s/^no 1[12] 0/no 5 0/", "second:  no 1"),
        ("s/^no 11 0/no 12 0/", "second:  no 11 0"),
        ("s/^no 12 0/no 11 0/", "second:  no 12 0"),
        ("s/^no 5 0/no 12 0/", "second:  no 5 0"),
        ("s/^no 20 .*/no 20 0/", "second:  no 20 "),
        ("s/^no 21 .*/no 21 0/", "second:  no 21 "),
        ("s/^no 22 .*/no 22 0/", "second:  no 22 "),
        ("s/^no 20 256$/no 20 0/", "second:  no 20 256"),
        ("s/^no 22 65536$/no 22 0/", "second:  no 22 65536"),
        ("s/^no 21 200000$/no 21 3392/", "second:  no 21 200000"),
        ("s/^no 9 .*/no 9 0/", "second:  no 9 "),
        ("s/^no 9 .*/no 8 0/", "second:  no 9 "),
        ("s/^no 9 (1[0-9]{12})$/no 9 1000000000000/", "second:  no 9 1000000000"),
    ];
    for (edit, what) in edits {
        let fault = answered_otherwise(&ON_CARD, "card", edit).unwrap_err();
        assert!(fault.contains(what), "{edit}: {fault}");
    }
}

/// A line as it was before request 5, one with a number too many, and other totals.
const OTHER_TOTALS: [&str; 7] = [
    "s/^(ok .*) [0-9]+$/\\1/",
    "s/^(ok .*)$/\\1 0/",
    "s/^(ok .*) [0-9]+$/\\1 -/",
    "s/^(ok .*) [1-9][0-9]*$/\\1 0/",
    "s/^(ok .*) 0$/\\1 1/",
    "s/^(ok .*) 32000000$/\\1 31000000/",
    "s/^(ok [0-9]+ - .*) [0-9]+$/\\1 0/",
];

#[test]
fn a_card_with_another_total_is_seen() {
    for edit in OTHER_TOTALS {
        let fault = answered_otherwise(&ON_CARD, "card", edit).unwrap_err();
        assert!(fault.contains("second:  ok "), "{edit}: {fault}");
        let fault = answered_otherwise(&["outside", "--runs", "400"], "card", edit).unwrap_err();
        let seen = ["no line of the card", "ticks are told to come back"].iter().any(|by| fault.contains(by));
        assert!(seen, "{edit}: {fault}");
    }
}

/// Enough for every case: the scripts come first.
const ON_USAGE: [&str; 5] = ["compare-usage", "--runs", "150", "--wait", SHORT];

#[test]
fn a_right_usage_agrees_and_one_that_reads_on_is_seen() {
    let right = said(&ON_USAGE, "usage", &[]).unwrap();
    assert!(right.contains("outputs agree"), "{right}");
    let fault = said(&ON_USAGE, "usage_reads_on", &[]).unwrap_err();
    assert!(fault.contains("has not ended"), "{fault}");
}

/// A number that is another, lines that are missing, twice or otherwise written, and the card's own.
#[test]
fn a_usage_with_another_line_is_seen() {
    let edits = [
        ("s/^time .*/time 0/", "second:  time "),
        ("s/^idle 1000000000000$/idle 3567587328/", "second:  idle 1000000000000"),
        ("s/^removed [1-9].*/removed 0/", "second:  removed "),
        ("s/^tenants [1-9].*/tenants 0/", "second:  tenants "),
        ("s/ held [1-9][0-9]*/ held 0/", "second:  tenant "),
        ("s/ pending [1-9][0-9]*/ pending 0/", "second:  tenant "),
        ("s/ usable [0-9]*$//", "second:  tenant "),
        ("s/^tenant (.*)$/tenant 0\\1/", "second:  tenant "),
        ("/^no 21/d", "second:  no 21 "),
        ("s/^no 22 .*/no 22 0/", "second:  no 22 "),
        ("s/^(no .*)$/\\1\\n\\1/", "a line too many: no "),
        ("s/$/ /", "line 1 differs"),
    ];
    for (edit, what) in edits {
        let fault = answered_otherwise(&ON_USAGE, "usage-lines", edit).unwrap_err();
        assert!(fault.contains(what), "{edit}: {fault}");
    }
    let fault = said(&ON_USAGE, "card", &[]).unwrap_err();
    assert!(fault.contains("line 1 differs"), "{fault}");
}

/// What stands at the end of a fault makes the same input again.
#[test]
fn a_run_of_usage_is_made_again() {
    let edit = "s/ held 42989[0-9]{5} / held 4000007 /";
    let fault = answered_otherwise(&ON_USAGE, "usage-lines", edit).unwrap_err();
    let again = fault.lines().last().and_then(|line| line.trim().strip_prefix("again:   second ")).unwrap();
    let (run, _) = again.split_once(" | ").unwrap();
    let lines = piped(&format!("\"$SECOND\" {run} | \"$SECOND\" usage-lines"));
    assert!(fault.contains(lines.lines().last().unwrap()), "{fault}: {lines}");
}

/// What `outside-usage` says to a right card and the second program's own totals, changed so.
fn usage_from_outside(edit: &str) -> Result<String, String> {
    let card = format!("{}/tests/stand_ins/card", env!("CARGO_MANIFEST_DIR"));
    answered_otherwise(&["outside-usage", "--runs", "400", &card], "usage-lines", edit)
}

#[test]
fn totals_are_held_to_the_lines_of_a_card() {
    let right = usage_from_outside("").unwrap();
    assert!(right.contains("are what the card's lines say"), "{right}");
    let edits = [
        ("s/^time .*/time 0/", "second:  time "),
        ("s/^idle [1-9].*/idle 0/", "second:  idle "),
        ("s/^removed [1-9].*/removed 0/", "second:  removed "),
        ("s/ held [1-9][0-9]*/ held 0/", "second:  tenant "),
        ("s/ pending [1-9][0-9]*/ pending 0/", "second:  tenant "),
        ("s/ usable [1-9][0-9]*$/ usable 0/", "second:  tenant "),
        ("/^no 21/d", "second:  no 21 "),
        ("s/ usable [0-9]*$//", "no line of the totals"),
        ("s/^tenants 2$/tenants 1/", "not the lines of the totals"),
    ];
    for (edit, what) in edits {
        let fault = usage_from_outside(edit).unwrap_err();
        assert!(fault.contains(what) && fault.contains("again:   second outside-run "), "{edit}: {fault}");
    }
}

/// What a line of the shell writes.
fn piped(line: &str) -> String {
    let second = env!("CARGO_BIN_EXE_second");
    let done = Command::new("sh").args(["-c", line]).env("SECOND", second).output().expect("a shell starts");
    String::from_utf8(done.stdout).expect("text")
}

#[test]
fn a_table_tells_whose_work_it_was() {
    let records = "admit 0 id 9 T 10 C 3 pr 1\\nwake 1 id 9\\ntick 4\\nbytes 07 00 00\\n";
    let usage = format!("{}/tests/stand_ins/usage", env!("CARGO_MANIFEST_DIR"));
    let table = piped(&format!("printf '{records}' | \"$SECOND\" words | \"$SECOND\" usage '{usage}'"));
    let lines: Vec<Vec<&str>> = table.lines().map(|line| line.split_whitespace().collect()).collect();
    assert_eq!(lines[1], ["9", "3", "75.0%", "3", "0"]);
    assert_eq!(
        (lines[3].as_slice(), lines[4].as_slice()),
        (&["idle", "1", "25.0%"][..], &["time", "4", "100.0%"][..])
    );
    assert_eq!(table.lines().last(), Some("byte 49: the tag is unknown"));
    let wrong = answered_otherwise(&["usage"], "usage-lines", "s/^idle 0/idle 3/").unwrap_err();
    assert!(wrong.contains("3 together, and the time is 0"), "{wrong}");
}

#[test]
fn a_sizing_with_another_place_is_seen() {
    let edits = [
        ("s/^no 31 .*/no 31 0/", "second:  no 31 "),
        ("s/^no 32 .*/no 32 0/", "second:  no 32 "),
        ("s/^no 31 16$/no 31 15/", "second:  no 31 16"),
        ("s/^no 32 2$/no 32 1/", "second:  no 32 2"),
    ];
    for (edit, what) in edits {
        let fault = answered_otherwise(&FEW_QUERIES, "sizing", edit).unwrap_err();
        assert!(fault.contains(what), "{edit}: {fault}");
    }
}

/// Too few for every case, but a difference is told first.
const FEW_QUERIES: [&str; 5] = ["compare-sizing", "--count", "40000", "--wait", SHORT];

/// 36 as another number or with a detail, and answers of the aligned form in words of their own.
#[test]
fn a_sizing_with_another_aligned_answer_is_seen() {
    let edits = [
        ("s/^no 36 0/no 34 0/", "second:  no 36 0"),
        ("s/^no 36 0/no 36 1/", "second:  no 36 0"),
        ("/^no 36 0/d", "second:  no 36 0"),
    ];
    for (edit, what) in edits {
        let fault = answered_otherwise(&FEW_QUERIES, "sizing", edit).unwrap_err();
        assert!(fault.contains(what), "{edit}: {fault}");
    }
    let fault = said(&FEW_QUERIES, "sizing_without_aligned", &[]).unwrap_err();
    assert!(fault.contains("aligned best 9 5 1 10 3"), "{fault}");
}

const ON_SALES: [&str; 3] = ["compare-sales", "--wait", SHORT];

#[test]
fn a_right_sales_agrees_and_one_that_reads_on_is_seen() {
    let right = said(&ON_SALES, "sales", &[]).unwrap();
    assert!(right.contains("outputs agree"), "{right}");
    let fault = said(&ON_SALES, "sales_reads_on", &[]).unwrap_err();
    assert!(fault.contains("has not ended"), "{fault}");
}

#[test]
fn a_sales_with_another_line_is_seen() {
    let edits = [
        ("s/^no 37 .*/no 37 0/", "second:  no 37 "),
        ("s/^no 37 16$/no 37 15/", "second:  no 37 16"),
        ("s/^no 37 17$/no 30 0/", "second:  no 37 17"),
        ("s/^aligned no 36 0$/aligned no 34 0/", "aligned no 36 0"),
        ("s/^aligned bad line$/aligned ok 5/", "aligned bad line"),
        ("s/^bad line$/ordinary bad line/", "second:  bad line"),
        ("/^ordinary ok /d", "second:  ordinary ok "),
        ("s/^9999 /999 /", "9999 "),
        ("s/^(help .*)$/\\1./", "second:  help | sheet"),
        ("s/^bad word$/ordinary bad word/", "second:  bad word"),
        ("s/^bad word$/bad field 1/", "second:  bad word"),
        ("/^bad word$/d", "second:  bad word"),
        ("s/^bad field 1$/bad field 0/", "second:  bad field 1"),
        ("s/^bad field 3$/bad field 4/", "second:  bad field 3"),
        ("s/^bad field 2$/aligned bad field 2/", "second:  bad field 2"),
        ("s/^(ordinary|aligned) (bad field 1)$/\\2/", "second:  ordinary bad field 1"),
    ];
    for (edit, what) in edits {
        let fault = answered_otherwise(&ON_SALES, "sales", edit).unwrap_err();
        assert!(fault.contains(what), "{edit}: {fault}");
    }
}

#[test]
fn a_sales_that_asks_a_bad_question_is_seen() {
    for (word, told) in [("demand", "bad word"), ("aligned least", "bad word"), ("check", "bad field 2")] {
        let fault = said(&ON_SALES, "sales_asks_bad", &[("WORD", word)]).unwrap_err();
        let seen = fault.contains(&format!("\"{word} ")) && fault.contains(&format!("second:  {told}"));
        assert!(seen, "{word}: {fault}");
    }
}

/// A bad line told twice, otherwise or not at all, and another text or place of help.
#[test]
fn a_sizing_with_another_bad_line_or_help_is_seen() {
    let edits = [
        ("s/^(bad line)$/\\1\\n\\1/", "bad line"),
        ("s/^bad line$/bad word/", "bad line"),
        ("/^bad line$/d", "bad line"),
        ("s/^(supply P .*)$/\\1 /", "second:  supply P B t | demand"),
        ("s/^(supply P .*) [(].*$/\\1/", "second:  supply P B t | demand"),
        ("s/^(supply P .*) [|] aligned .*$/\\1/", "second:  supply P B t | demand"),
        ("s/^bad field 1$/bad field 0/", "second:  bad field 1"),
    ];
    for (edit, what) in edits {
        let fault = answered_otherwise(&FEW_QUERIES, "sizing", edit).unwrap_err();
        assert!(fault.contains(what), "{edit}: {fault}");
    }
}

#[test]
fn answers_that_are_not_changed_agree() {
    for (words, command) in [(&ON_CARD[..], "card"), (&["compare-sizing"], "sizing")] {
        let said = answered_otherwise(words, command, "").unwrap();
        assert!(said.contains("agree"), "{said}");
    }
}

#[test]
fn a_card_that_tells_a_refusal_otherwise_is_seen_from_outside() {
    let edits = [
        ("s/^no 20 .*/no 20 0/", "meant is no 20 "),
        ("s/^no 21 .*/no 21 0/", "meant is no 21 "),
        ("s/^no 22 .*/no 22 0/", "meant is no 22 "),
        ("s/^no 11 0/no 5 0/", "meant is no 11 0"),
        ("s/^no 12 0/no 5 0/", "meant is no 12 0"),
        ("s/^no 9 .*/no 9 0/", "meant is no 9 "),
        ("s/^no 9 .*/no 6 0/", "meant is no 9 "),
        ("s/^no 8 0/no 6 0/", "meant is no 8 0"),
    ];
    for (edit, what) in edits {
        let fault = answered_otherwise(&["outside", "--runs", "400"], "card", edit).unwrap_err();
        assert!(fault.contains(what), "{edit}: {fault}");
    }
}
