//! Sales programs with one wrong reading each, to see that the comparison finds it.

use crate::compare_sales::{compare, inputs};
use crate::reached::Reached;
use crate::sales::{self, HELP};
use crate::sheets;

/// What a program with the fault writes.
type Wrong = fn(&[u8]) -> Vec<u8>;

fn lines(sheet: &[u8]) -> impl Iterator<Item = &[u8]> {
    sheet.split_inclusive(|&byte| byte == b'\n')
}

/// What is right for another sheet below the same question.
fn read_as(input: &[u8], other: impl Fn(&[u8]) -> Vec<u8>) -> Vec<u8> {
    let (_, sheet) = sales::take_apart(input);
    let front = &input[..input.len() - sheet.len()];
    sales::answer(&[front, &other(sheet)].concat())
}

/// What is right for a sheet of other lines.
fn each_line_as(input: &[u8], other: impl Fn(&str) -> String) -> Vec<u8> {
    let other = |line: &[u8]| other(&String::from_utf8_lossy(line)).into_bytes();
    read_as(input, |sheet| lines(sheet).flat_map(other).collect())
}

/// Some text is taken for another one.
fn takes(input: &[u8], text: &str, instead: &str) -> Vec<u8> {
    each_line_as(input, |line| line.replace(text, instead))
}

/// Numbers of a line, each by itself, with what stands between and behind them.
fn numbers_as(input: &[u8], other: fn(usize, &str) -> String) -> Vec<u8> {
    each_line_as(input, |line| {
        let (bare, end) = line.strip_suffix('\n').map_or((line, ""), |bare| (bare, "\n"));
        let pieces: Vec<String> = bare.split(' ').enumerate().map(|(k, piece)| other(k, piece)).collect();
        pieces.join(" ") + end
    })
}

fn without_zeros(piece: &str) -> String {
    let rest = piece.trim_start_matches('0');
    if rest.is_empty() && !piece.is_empty() {
        return "0".to_string();
    }
    rest.to_string()
}

/// The first line of which this is true is bad too.
fn refuses(input: &[u8], bad: impl Fn(usize, &[u8]) -> bool) -> Vec<u8> {
    let (question, sheet) = sales::take_apart(input);
    let good = sheets::read(sheet).is_ok() && question != b"help" && input.len() <= 65_535;
    match lines(sheet).enumerate().position(|(place, line)| bad(place + 1, line)) {
        Some(place) if good => format!("no 37 {}\n", place + 1).into_bytes(),
        _ => sales::answer(input),
    }
}

/// Another line number for the right one.
fn tells(input: &[u8], other: fn(u64, &[u8]) -> u64) -> Vec<u8> {
    let right = sales::answer(input);
    let text = String::from_utf8_lossy(&right);
    let Some(line) = text.strip_prefix("no 37 ").and_then(|line| line.trim_end().parse().ok()) else {
        return right;
    };
    let (_, sheet) = sales::take_apart(input);
    format!("no 37 {}\n", other(line, sheet)).into_bytes()
}

/// What is right, if it has two lines, with other ones.
fn writes(input: &[u8], other: fn(&str, &str) -> String) -> Vec<u8> {
    let right = sales::answer(input);
    let text = String::from_utf8_lossy(&right);
    match text.split_inclusive('\n').collect::<Vec<&str>>()[..] {
        [ordinary, aligned] if ordinary.starts_with("ordinary ") => other(ordinary, aligned).into_bytes(),
        _ => right,
    }
}

/// A bad sheet is passed over where another answer fits.
fn before_37(input: &[u8], fits: fn(&str) -> bool) -> Vec<u8> {
    let right = sales::answer(input);
    let empty = read_as(input, |_| Vec::new());
    let one = read_as(input, |_| b"20 1\n".to_vec());
    let fit = [empty, one].into_iter().find(|other| fits(&String::from_utf8_lossy(other)));
    match fit {
        Some(other) if right.starts_with(b"no 37") => other,
        _ => right,
    }
}

/// The question and the sheet, if it is a good one and the question is for neither help nor it.
fn asked(input: &[u8]) -> Option<(&[u8], &[u8])> {
    let (question, sheet) = sales::take_apart(input);
    let none = question == b"help" || question == b"sheet" || input.len() > 65_535;
    (!none && sheets::read(sheet).is_ok()).then_some((question, sheet))
}

/// A question that is concerned is given to sizing as it is, though it should not be.
fn asks(input: &[u8], concerned: impl Fn(&str, usize) -> bool) -> Vec<u8> {
    let right = sales::answer(input);
    let Some((question, sheet)) = asked(input).filter(|_| right.starts_with(b"bad ")) else { return right };
    let (word, fields) = sales::word_and_fields(question);
    let rows = sheets::read(sheet).expect("a good sheet");
    match concerned(&String::from_utf8_lossy(word), fields) {
        true => sales::in_both_forms(question, &rows).into_bytes(),
        false => right,
    }
}

/// Another question is answered in its place, if it is asked at all.
fn asks_as(input: &[u8], other: impl Fn(&str) -> String) -> Vec<u8> {
    match asked(input) {
        Some((question, sheet)) if input.len() < 60_000 => {
            let other = other(&String::from_utf8_lossy(question)).into_bytes();
            sales::answer(&[&other[..], b"\r\n", sheet].concat())
        }
        _ => sales::answer(input),
    }
}

/// Another place for the field that is missing or too many: the one told, how many there are, and
/// how many should be.
fn tells_field(input: &[u8], other: fn(usize, usize, usize) -> usize) -> Vec<u8> {
    let right = sales::answer(input);
    let text = String::from_utf8_lossy(&right);
    let Some(place) = text.strip_prefix("bad field ").and_then(|place| place.trim_end().parse().ok()) else {
        return right;
    };
    let (word, fields) = sales::word_and_fields(sales::take_apart(input).0);
    let wanted = sales::wanted(word).expect("a word that is asked");
    format!("bad field {}\n", other(place, fields, wanted)).into_bytes()
}

/// Another output for a whole one.
fn says(input: &[u8], output: &str, instead: &str) -> Vec<u8> {
    match sales::answer(input) {
        right if right == output.as_bytes() => instead.as_bytes().to_vec(),
        right => right,
    }
}

const SHEETS: [(&str, Wrong); 32] = [
    ("a zero before a period is taken", |input| {
        numbers_as(input, |k, piece| if k == 0 { without_zeros(piece) } else { piece.to_string() })
    }),
    ("a zero before a cost is taken", |input| {
        numbers_as(input, |k, piece| if k == 1 { without_zeros(piece) } else { piece.to_string() })
    }),
    ("00 is taken", |input| {
        numbers_as(input, |_, piece| if piece == "00" { "0".to_string() } else { piece.to_string() })
    }),
    ("a last line without a newline is taken", |input| {
        read_as(input, |sheet| match sheet.last() {
            Some(b'\n') | None => sheet.to_vec(),
            Some(_) => [sheet, b"\n"].concat(),
        })
    }),
    ("a last line without a newline is dropped", |input| {
        read_as(input, |sheet| lines(sheet).filter(|line| line.ends_with(b"\n")).collect::<Vec<_>>().concat())
    }),
    ("what is behind sixteen lines is not read", |input| {
        read_as(input, |sheet| lines(sheet).take(16).collect::<Vec<_>>().concat())
    }),
    ("a seventeenth line is bad only by itself", |input| {
        let (question, sheet) = sales::take_apart(input);
        let good = lines(sheet).all(|line| sheets::read(line).is_ok()) && lines(sheet).count() > 16;
        match good && question != b"help" && input.len() <= 65_535 {
            true => b"ordinary no 30 0\naligned no 30 0\n".to_vec(),
            false => sales::answer(input),
        }
    }),
    ("a line that is empty behind sixteen is taken", |input| {
        read_as(input, |sheet| {
            let ends = sheet.ends_with(b"\n\n") && lines(sheet).count() == 17;
            sheet[..sheet.len() - usize::from(ends)].to_vec()
        })
    }),
    ("37 counts from 0", |input| tells(input, |line, _| line - 1)),
    ("37 has no detail", |input| tells(input, |_, _| 0)),
    ("37 names the last bad line", |input| {
        tells(input, |_, sheet| {
            let bad = |&(place, line): &(u64, &[u8])| place > 16 || sheets::read(line).is_err();
            (1..).zip(lines(sheet)).filter(bad).map(|(place, _)| place).last().unwrap_or(0)
        })
    }),
    ("37 tells how many lines there are", |input| tells(input, |_, sheet| lines(sheet).count() as u64)),
    ("37 counts the question's line too", |input| tells(input, |line, _| line + 1)),
    ("two spaces are taken", |input| takes(input, "  ", " ")),
    ("a tab is taken", |input| takes(input, "\t", " ")),
    ("a carriage return is taken", |input| takes(input, "\r\n", "\n")),
    ("a NUL byte is passed over", |input| takes(input, "\0", "")),
    ("a plus is taken", |input| takes(input, "+", "")),
    ("a minus is passed over", |input| takes(input, "-", "")),
    ("letters are passed over", |input| takes(&takes_letters(input), "x", "")),
    ("a space in front is taken", |input| {
        each_line_as(input, |line| line.trim_start_matches(' ').to_string())
    }),
    ("a space at the end is taken", |input| takes(input, " \n", "\n")),
    ("a third number is passed over", |input| {
        each_line_as(input, |line| match line.split(' ').collect::<Vec<&str>>()[..] {
            [period, cost, _] if !period.is_empty() && !cost.is_empty() => format!("{period} {cost}\n"),
            _ => line.to_string(),
        })
    }),
    ("a cost that is missing is 0", |input| {
        each_line_as(input, |line| match line.trim_end_matches([' ', '\n']).parse::<u64>() {
            Ok(period) => format!("{period} 0\n"),
            Err(_) => line.to_string(),
        })
    }),
    ("five digits are taken", |input| {
        numbers_as(input, |_, piece| piece.get(..piece.len().min(4)).unwrap_or(piece).to_string())
    }),
    ("an empty line is passed over", |input| {
        each_line_as(input, |line| line.trim_start_matches('\n').to_string())
    }),
    ("an empty line ends the sheet", |input| {
        read_as(input, |sheet| lines(sheet).take_while(|line| *line != b"\n").collect::<Vec<_>>().concat())
    }),
    ("0 is bad", |input| refuses(input, |_, line| line.starts_with(b"0 ") || line.ends_with(b" 0\n"))),
    ("four digits are bad", |input| {
        let long = |line: &[u8]| line.split(|byte| !byte.is_ascii_digit()).any(|number| number.len() == 4);
        refuses(input, |_, line| long(line))
    }),
    ("9999 is bad", |input| refuses(input, |_, line| line.windows(4).any(|four| four == b"9999"))),
    ("a sixteenth line is bad", |input| refuses(input, |place, _| place == 16)),
    ("an empty sheet is bad", |input| {
        let (question, sheet) = sales::take_apart(input);
        match sheet.is_empty() && question != b"help" && input.len() <= 65_535 {
            true => b"no 37 1\n".to_vec(),
            false => sales::answer(input),
        }
    }),
];

fn takes_letters(input: &[u8]) -> Vec<u8> {
    let (question, sheet) = sales::take_apart(input);
    let sheet: Vec<u8> = sheet.iter().copied().filter(|byte| !b"ex".contains(byte)).collect();
    [question, b"\n", &sheet].concat()
}

/// The right answer but for an input that the fault concerns.
fn instead(input: &[u8], concerned: bool, other: &[u8]) -> Vec<u8> {
    if concerned {
        return other.to_vec();
    }
    sales::answer(input)
}

const ANSWERS: [(&str, Wrong); 25] = [
    ("37 goes behind 30", |input| before_37(input, |other| other.starts_with("ordinary no 30"))),
    ("37 goes behind 33", |input| before_37(input, |other| other.starts_with("ordinary no 33"))),
    ("37 goes behind a bad word", |input| before_37(input, |other| other == "bad word\n")),
    ("37 is told in both forms", |input| {
        let right = String::from_utf8_lossy(&sales::answer(input)).into_owned();
        let both = right.starts_with("no 37").then(|| format!("ordinary {right}aligned {right}"));
        both.unwrap_or(right).into_bytes()
    }),
    ("help reads the sheet first", |input| {
        let (question, sheet) = sales::take_apart(input);
        let bad = question == b"help" && sheets::read(sheet).is_err() && input.len() <= 65_535;
        instead(input, bad, b"no 37 1\n")
    }),
    ("help goes before a bad line", |input| {
        instead(input, sales::take_apart(input).0 == b"help", format!("{HELP}\n").as_bytes())
    }),
    ("help is answered as sizing does", |input| {
        let help = sales::take_apart(input).0 == b"help" && input.len() <= 65_535;
        instead(input, help, format!("ordinary {}\naligned bad word\n", crate::sizing::HELP).as_bytes())
    }),
    ("help with a field is help", |input| {
        let help = input.starts_with(b"help ") && input.len() <= 65_535;
        instead(input, help, format!("{HELP}\n").as_bytes())
    }),
    ("a bad sheet is written back", |input| {
        let (question, sheet) = sales::take_apart(input);
        instead(input, question == b"sheet" && input.len() <= 65_535, sheet)
    }),
    ("a sheet is written back without its last newline", |input| {
        let right = sales::answer(input);
        let sheet = sales::take_apart(input).0 == b"sheet" && !right.starts_with(b"no ");
        instead(input, sheet, right.strip_suffix(b"\n").unwrap_or(&right))
    }),
    ("an empty sheet is written back as a newline", |input| {
        instead(input, sales::answer(input).is_empty(), b"\n")
    }),
    ("sheet is no question", |input| {
        let sheet = sales::take_apart(input).0 == b"sheet" && !sales::answer(input).starts_with(b"no ");
        instead(input, sheet && input.len() <= 65_535, b"bad word\n")
    }),
    ("a carriage return stays with the question", |input| {
        let end = input.iter().position(|&byte| byte == b'\n').unwrap_or(input.len());
        let carriage = input[..end].ends_with(b"\r") && input.len() < 60_000;
        instead(input, carriage, &sales::answer(&[&input[..end], b"\r", &input[end..]].concat()))
    }),
    ("all carriage returns are dropped", |input| {
        let (question, sheet) = sales::take_apart(input);
        let bare = question.strip_suffix(b"\r").unwrap_or(question);
        instead(input, bare.len() < question.len(), &sales::answer(&[bare, b"\n", sheet].concat()))
    }),
    ("a question without a newline is none", |input| {
        let alone = !input.contains(&b'\n') && input.len() <= 65_535;
        instead(input, alone, b"bad word\n")
    }),
    ("the longest input has 65534 bytes", |input| instead(input, input.len() == 65_535, b"bad line\n")),
    ("the longest input has 65536 bytes", |input| {
        instead(input, input.len() == 65_536, &sales::answer(&input[..input.len().min(65_535)]))
    }),
    ("only the front of a long input is read", |input| sales::answer(&input[..input.len().min(65_535)])),
    ("a line has no room for aligned", |input| {
        writes(input, |ordinary, aligned| ordinary.to_string() + &aligned.replace("bad line", "ok 3"))
    }),
    ("the aligned form goes first", |input| {
        writes(input, |ordinary, aligned| format!("{aligned}{ordinary}"))
    }),
    ("the forms have each other's names", |input| {
        writes(input, |ordinary, aligned| {
            ordinary.replace("ordinary", "aligned") + &aligned.replace("aligned", "ordinary")
        })
    }),
    ("the ordinary form alone is told", |input| writes(input, |ordinary, _| ordinary.to_string())),
    ("the ordinary form is told twice", |input| {
        writes(input, |ordinary, _| ordinary.to_string() + &ordinary.replace("ordinary", "aligned"))
    }),
    ("the forms are told without a name", |input| {
        writes(input, |ordinary, aligned| {
            ordinary.replace("ordinary ", "") + &aligned.replace("aligned ", "")
        })
    }),
    ("a form that is refused is not told", |input| {
        writes(input, |ordinary, aligned| match aligned.contains(" no 36") {
            true => ordinary.to_string(),
            false => format!("{ordinary}{aligned}"),
        })
    }),
];

/// Which questions are asked, how many fields they have, and how it is told that they are not.
const QUESTIONS: [(&str, Wrong); 40] = [
    ("fields are taken from the sheet", |input| {
        asks(input, |word, fields| sales::wanted(word.as_bytes()).is_some_and(|wanted| fields < wanted))
    }),
    ("one field is taken from the sheet", |input| {
        asks(input, |word, fields| sales::wanted(word.as_bytes()) == Some(fields + 1))
    }),
    ("two fields are taken from the sheet", |input| {
        asks(input, |word, fields| sales::wanted(word.as_bytes()) == Some(fields + 2))
    }),
    ("fields too many are tasks", |input| {
        asks(input, |word, fields| sales::wanted(word.as_bytes()).is_some_and(|wanted| fields > wanted))
    }),
    ("pairs of fields too many are tasks", |input| {
        asks(input, |word, fields| {
            let over = sales::wanted(word.as_bytes()).and_then(|wanted| fields.checked_sub(wanted));
            over.is_some_and(|over| over % 2 == 0)
        })
    }),
    ("the fields are not counted", |input| asks(input, |word, _| sales::wanted(word.as_bytes()).is_some())),
    ("check has one field", |input| asks(input, |word, fields| word == "check" && fields == 1)),
    ("check has three fields", |input| asks(input, |word, fields| word == "check" && fields == 3)),
    ("least has no field", |input| asks(input, |word, fields| word == "least" && fields == 0)),
    ("best has two fields", |input| asks(input, |word, fields| word == "best" && fields == 2)),
    ("aligned before a question is taken", |input| asks(input, |word, _| word == "aligned")),
    ("aligned before a question is passed over", |input| {
        asks_as(input, |question| question.strip_prefix("aligned ").unwrap_or(question).to_string())
    }),
    ("aligned before check is passed over", |input| {
        asks_as(input, |question| question.replace("aligned check", "check"))
    }),
    ("aligned before best is passed over", |input| {
        asks_as(input, |question| question.replace("aligned best", "best"))
    }),
    ("demand is taken", |input| asks(input, |word, _| word == "demand")),
    ("demand with its fields is taken", |input| asks(input, |word, fields| word == "demand" && fields == 2)),
    ("supply is taken", |input| asks(input, |word, _| word == "supply")),
    ("help of sizing is asked", |input| asks(input, |word, fields| word == "help" && fields > 0)),
    ("an empty question is asked", |input| asks(input, |word, fields| word.is_empty() && fields == 0)),
    ("a bad word is told by sizing", |input| asks(input, |word, _| sales::wanted(word.as_bytes()).is_none())),
    ("sheet with a field is sheet", |input| {
        asks_as(input, |question| {
            question.split(' ').find(|word| *word == "sheet").unwrap_or(question).into()
        })
    }),
    ("a space behind sheet is passed over", |input| {
        asks_as(input, |question| if question == "sheet " { "sheet" } else { question }.to_string())
    }),
    ("a space behind help is passed over", |input| {
        asks_as(input, |question| if question == "help " { "help" } else { question }.to_string())
    }),
    ("a space in front of a question is passed over", |input| {
        asks_as(input, |question| question.trim_start_matches(' ').to_string())
    }),
    ("a space behind a question is passed over", |input| {
        asks_as(input, |question| question.strip_suffix(' ').unwrap_or(question).to_string())
    }),
    ("spaces together are one", |input| {
        asks_as(input, |question| {
            let all: Vec<&str> = question.split(' ').collect();
            let full = |(place, piece): &(usize, &&str)| *place == 0 || !piece.is_empty();
            all.iter().enumerate().filter(full).map(|(_, piece)| *piece).collect::<Vec<&str>>().join(" ")
        })
    }),
    ("a tab parts a word from its field", |input| asks_as(input, |question| question.replace('\t', " "))),
    ("large letters are taken", |input| asks_as(input, |question| question.to_ascii_lowercase())),
    ("a word is known by how it begins", |input| {
        asks_as(input, |question| question.replace("leastt", "least").replace("checks", "check"))
    }),
    ("a bad field goes before 37", |input| before_37(input, |other| other.starts_with("bad field "))),
    ("the place of a field counts from 0", |input| tells_field(input, |place, _, _| place - 1)),
    ("the place of a field counts the word too", |input| tells_field(input, |place, _, _| place + 1)),
    ("the last field is told", |input| tells_field(input, |_, fields, wanted| fields.max(wanted))),
    ("the last field that is there is told", |input| tells_field(input, |_, fields, _| fields)),
    ("the last field that is right is told", |input| {
        tells_field(input, |_, fields, wanted| fields.min(wanted).max(1))
    }),
    ("a field that is no number is told before one that is missing", |input| {
        let right = sales::answer(input);
        let question = String::from_utf8_lossy(sales::take_apart(input).0).into_owned();
        let is_number = |field: &str| !field.is_empty() && field.bytes().all(|byte| byte.is_ascii_digit());
        match question.split(' ').skip(1).position(|field| !is_number(field)) {
            Some(place) if right.starts_with(b"bad field ") => {
                format!("bad field {}\n", place + 1).into_bytes()
            }
            _ => right,
        }
    }),
    ("a bad field is told in both forms", |input| {
        let right = String::from_utf8_lossy(&sales::answer(input)).into_owned();
        let both = right.starts_with("bad field").then(|| format!("ordinary {right}aligned {right}"));
        both.unwrap_or(right).into_bytes()
    }),
    ("a bad word is told in both forms", |input| {
        says(input, "bad word\n", "ordinary bad word\naligned bad word\n")
    }),
    ("a bad word is a bad field", |input| says(input, "bad word\n", "bad field 1\n")),
    ("a field that is no number is told once", |input| {
        says(input, "ordinary bad field 1\naligned bad field 1\n", "bad field 1\n")
    }),
];

#[test]
fn every_wrong_reading_of_a_sheet_is_seen() {
    let all = inputs(1, 2500);
    let is_seen = |wrong: Wrong| compare(&all, |_, input| Ok(wrong(input)), &mut Reached::default()).is_err();
    assert!(!is_seen(sales::answer));
    // What changes nothing here is no fault.
    assert!(!is_seen(|input| read_as(input, <[u8]>::to_vec)));
    assert!(!is_seen(|input| numbers_as(input, |_, piece| piece.to_string())));
    assert!(!is_seen(|input| refuses(input, |_, _| false)));
    assert!(!is_seen(|input| tells(input, |line, _| line)));
    assert!(!is_seen(|input| writes(input, |ordinary, aligned| format!("{ordinary}{aligned}"))));
    assert!(!is_seen(|input| asks(input, |_, _| false)));
    assert!(!is_seen(|input| asks_as(input, str::to_string)));
    assert!(!is_seen(|input| tells_field(input, |place, _, _| place)));
    assert!(!is_seen(|input| says(input, "bad word\n", "bad word\n")));
    for (what, wrong) in SHEETS.into_iter().chain(ANSWERS).chain(QUESTIONS) {
        assert!(is_seen(wrong), "{what}");
    }
}
