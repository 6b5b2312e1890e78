//! The totals of request 6 as a card's records and lines say them: who is on the card, what each
//! held since its admission and what of that is not back, what the removed held, and the rest.

use crate::outside::View;
use crate::refusal::Refusal;
use crate::stays::Stay;
use crate::usage_lines::{Row, Told, Totals};

/// What is to be told. Of one of several stays with a fold the lines may say no more than from where
/// to where its pending ticks can be: `told` stands if it lies there.
pub fn meant(view: &View, refusal: Option<Refusal>, told: &Totals) -> Told {
    let totals = Totals {
        time: view.last.time,
        idle: view.idle,
        removed: view.ended.values().flatten().map(Stay::ticks).sum(),
        tenants: view.stays.values().map(|stay| row(view, stay, told)).collect(),
    };
    Told { totals, refusal }
}

/// The last line tells the usable ticks of the one that it names.
fn row(view: &View, stay: &Stay, told: &Totals) -> Row {
    let named = (view.last.run == Some(stay.identifier)).then_some(view.last.usable);
    let pending = match named {
        Some(usable) if stay.folded => stay.capacity.saturating_sub(usable),
        _ => pending(view, stay, told),
    };
    let usable = match named {
        Some(usable) => usable,
        None if stay.is_sporadic() => stay.capacity.saturating_sub(pending),
        None => stay.usable(view.last.time),
    };
    Row { identifier: stay.identifier, held: stay.ticks(), pending, usable }
}

/// The ticks of its slices whose period is not over, and what is late of those that folded.
fn pending(view: &View, stay: &Stay, told: &Totals) -> u64 {
    let now = view.last.time;
    if !stay.is_sporadic() {
        return 0;
    }
    let (least, most) = view.late.of(stay, &view.stays, now);
    let told = told.row(stay.identifier).map_or(0, |row| row.pending);
    let own = stay.pending_ticks(now);
    told.clamp(own + least, own + most)
}

#[cfg(test)]
mod tests {
    use super::*;
    use crate::outside::{self, read_line};
    use crate::stays::Counts;
    use crate::words;

    /// What is meant behind records in words, each with the card's line for it.
    fn lines(answered: &[(&str, &str)], told: &str) -> String {
        let mut counts = Counts::default();
        let mut view = outside::view(&mut counts);
        for (record, line) in answered {
            view.follow(&words::record(record).unwrap(), read_line(line).unwrap()).unwrap();
        }
        let front = format!("time 0\nidle 0\nremoved 0\ntenants {}\n", told.lines().count());
        meant(&view, None, &Told::read(&format!("{front}{told}")).unwrap().totals).lines()
    }

    /// Idle to 2 and from 6 to 7; the removal at 10 charges three ticks, and the refused call none.
    #[test]
    fn every_tick_has_its_owner() {
        let mut answered = vec![
            ("tick 2", "ok 2 - 0 - 0"),
            ("admit 2 id 9 T 10 C 9 pr 1", "ok 2 - 0 - 0"),
            ("wake 2 id 9", "ok 2 9 9 11 0"),
            ("block 6 id 9", "ok 6 - 0 - 0"),
            ("wake 7 id 9", "ok 7 9 5 12 0"),
            ("wake 9 id 8", "no 7 0"),
        ];
        let right = "time 7\nidle 3\nremoved 0\ntenants 1\ntenant 9 held 4 pending 4 usable 5\n";
        assert_eq!(lines(&answered, ""), right);
        assert_eq!(lines(&answered, "tenant 9 held 4 pending 3 usable 6\n"), right);
        answered.push(("remove 10 id 9", "ok 10 - 0 - 0"));
        assert_eq!(lines(&answered, ""), "time 10\nidle 3\nremoved 7\ntenants 0\n");
        answered.push(("admit 17 id 9 T 10 C 9 pr 1 kind 2", "ok 17 - 0 - 0"));
        let back = "time 17\nidle 10\nremoved 7\ntenants 1\ntenant 9 held 0 pending 0 usable 0\n";
        assert_eq!(lines(&answered, ""), back);
    }

    /// Ten slices of two ticks, at 0, 5 and so on: the last entry has those of three and is due at
    /// 145. At 138 two slices are not over, and one more is late; whatever is told.
    #[test]
    fn ticks_of_a_fold_are_late() {
        let mut answered = vec![("admit 0 id 1 T 100 C 60 pr 1".to_string(), "ok 0 - 0 - 0".to_string())];
        for slice in 0..10 {
            let (from, left) = (5 * slice, 60 - 2 * slice);
            let (to, timer) = (from + 2, from + left);
            answered.push((format!("wake {from} id 1"), format!("ok {from} 1 {left} {timer} 0")));
            answered.push((format!("block {to} id 1"), format!("ok {to} - 0 - 0")));
        }
        for (now, total, pending) in [(138, 14, 6), (138, 16, 4), (145, 20, 0)] {
            let last = (format!("tick {now}"), format!("ok {now} - 0 - {total}"));
            let all = answered.iter().chain([&last]).map(|(record, line)| (&**record, &**line));
            let row = format!("tenant 1 held 20 pending {pending} usable {}\n", 60 - pending);
            for told in ["", "tenant 1 held 20 pending 60 usable 0\n"] {
                let meant = lines(&all.clone().collect::<Vec<_>>(), told);
                assert!(meant.ends_with(&row), "{meant}");
            }
        }
    }
}
