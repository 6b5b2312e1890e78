//! `picture`: a small run drawn as an SVG, from the lines that the given program wrote for
//! it. Above, who held the core, with a mark wherever the program told that ticks came back;
//! below, each tenant's usable budget, counted from those ticks as `outside` counts them, with a
//! dot wherever the program told it.

use crate::outside::{self, Told};
use crate::pipe;
use crate::records;
use crate::stays::{Counts, Stay};
use crate::turns::{Call, Change};
use crate::words;
use std::fmt::Write;

const LEFT: u64 = 150;
const TOP: u64 = 70;
const CORE: u64 = 40;
const BUDGET: u64 = 70;
const GAP: u64 = 34;
const WIDTH: u64 = 960;
const COLOURS: [&str; 6] = ["#0072b2", "#d55e00", "#009e73", "#cc79a7", "#e69f00", "#56b4e9"];

/// One tenant: its budget at each moment of its stay, and the dots.
struct Tenant {
    stay: Stay,
    budget: Vec<(u64, u64)>,
    told: Vec<(u64, u64)>,
}

impl Tenant {
    /// One tick, held or not; then what comes back at its end, which is told.
    fn pass(&mut self, now: u64, holds: bool) -> u64 {
        let spent = self.stay.usable(now) - u64::from(holds);
        if holds {
            self.stay.hold(now, now + 1, &mut Counts::default());
        }
        let brought = self.stay.brought(now, now + 1);
        self.stay.pass(now, now + 1);
        self.budget.push((now + 1, spent));
        self.budget.push((now + 1, self.stay.usable(now + 1)));
        self.budget.dedup();
        brought
    }
}

/// What the lines show.
#[derive(Default)]
struct Seen {
    tenants: Vec<Tenant>,
    held: Vec<(u64, u64, Option<u32>)>,
    /// When ticks came back, and how many.
    brought: Vec<(u64, u64)>,
    on_core: Option<u32>,
    now: u64,
}

impl Seen {
    fn tenant(&mut self, identifier: u32) -> Option<&mut Tenant> {
        self.tenants.iter_mut().find(|tenant| tenant.stay.identifier == identifier)
    }

    /// The ticks up to `time`, one after the other, to whoever was on the core. How many come
    /// back meanwhile is told.
    fn pass(&mut self, time: u64) -> u64 {
        let mut brought = 0;
        self.held.push((self.now, time, self.on_core));
        while self.now < time {
            let (now, on_core) = (self.now, self.on_core);
            for tenant in &mut self.tenants {
                brought += tenant.pass(now, on_core == Some(tenant.stay.identifier));
            }
            self.now += 1;
        }
        brought
    }

    fn accept(&mut self, change: &Change, told: &Told) -> Result<(), String> {
        let brought = self.pass(told.time);
        if brought != told.total {
            return Err(format!("at {} {brought} ticks come back, told are {}", told.time, told.total));
        }
        self.brought.extend((brought > 0).then_some((told.time, brought)));
        self.change(change)?;
        self.on_core = told.run;
        let Some(identifier) = told.run else { return Ok(()) };
        let now = self.now;
        let tenant = self.tenant(identifier).ok_or(format!("{identifier} is not on the card"))?;
        if tenant.stay.usable(now) != told.usable {
            return Err(format!("at {now} {identifier} has other usable ticks than told"));
        }
        tenant.told.push((now, told.usable));
        Ok(())
    }

    fn change(&mut self, change: &Change) -> Result<(), String> {
        let now = self.now;
        match change {
            Change::Admit(description) => {
                let stay = Stay::new(description, now)?;
                let budget = vec![(now, stay.usable(now))];
                self.tenants.push(Tenant { stay, budget, told: Vec::new() });
            }
            Change::Wake(identifier) => self.leave(*identifier, true),
            Change::Block(identifier) => self.leave(*identifier, false),
            _ => (),
        }
        Ok(())
    }

    /// A polling tenant that is left not runnable loses its ticks there.
    fn leave(&mut self, identifier: u32, runnable: bool) {
        let now = self.now;
        if let Some(tenant) = self.tenant(identifier) {
            tenant.stay.leave(runnable);
            tenant.budget.push((now, tenant.stay.usable(now)));
            tenant.budget.dedup();
        }
    }
}

/// Calls from words, in order; a picture has no removals and no refused records.
fn calls(text: &str) -> Result<Vec<Call>, String> {
    let (bytes, mut used, mut calls) = (words::to_records(text)?, 0, Vec::new());
    while used < bytes.len() {
        let (call, length) =
            records::read(&bytes[used..]).map_err(|number| format!("a record is refused with {number}"))?;
        if matches!(call.change, Change::Remove(_)) {
            return Err("a picture has no removal".to_string());
        }
        used += length;
        calls.push(call);
    }
    Ok(calls)
}

fn seen(text: &str, output: &str) -> Result<Seen, String> {
    let calls = calls(text)?;
    let lines: Vec<&str> = output.lines().collect();
    if lines.len() != calls.len() || calls.is_empty() {
        return Err(format!("{} lines for {} records", lines.len(), calls.len()));
    }
    let mut seen = Seen::default();
    for (call, line) in calls.iter().zip(lines) {
        let told = outside::read_line(line)?.map_err(|_| format!("{line}: a picture has no refusal"))?;
        seen.accept(&call.change, &told)?;
    }
    if seen.now == 0 {
        return Err("no tick passes".to_string());
    }
    Ok(seen)
}

fn colour(seen: &Seen, identifier: u32) -> &'static str {
    let place = seen.tenants.iter().position(|tenant| tenant.stay.identifier == identifier);
    COLOURS[place.unwrap_or(0) % COLOURS.len()]
}

struct Drawing {
    svg: String,
    end: u64,
}

impl Drawing {
    fn x(&self, moment: u64) -> u64 {
        LEFT + moment * WIDTH / self.end
    }

    fn add(&mut self, element: std::fmt::Arguments) {
        writeln!(self.svg, "{element}").expect("a string takes all");
    }

    fn text(&mut self, x: u64, y: u64, anchor: &str, text: &str) {
        self.add(format_args!("<text x=\"{x}\" y=\"{y}\" text-anchor=\"{anchor}\">{text}</text>"));
    }

    fn core(&mut self, seen: &Seen) {
        self.text(LEFT - 10, TOP + 25, "end", "on the core");
        for &(from, to, holder) in &seen.held {
            let (x, wide) = (self.x(from), self.x(to) - self.x(from));
            let fill = holder.map_or("#eeeeee", |identifier| colour(seen, identifier));
            self.add(format_args!(
                "<rect x=\"{x}\" y=\"{TOP}\" width=\"{wide}\" height=\"{CORE}\" fill=\"{fill}\"/>"
            ));
        }
    }

    /// A mark under the core's row.
    fn brought(&mut self, seen: &Seen) {
        let (top, foot) = (TOP + CORE + 3, TOP + CORE + 11);
        for &(moment, ticks) in &seen.brought {
            let x = self.x(moment);
            let (left, right, y) = (x - 4, x + 4, foot + 12);
            self.add(format_args!("<polygon points=\"{x},{top} {left},{foot} {right},{foot}\"/>"));
            self.add(format_args!(
                "<text x=\"{x}\" y=\"{y}\" text-anchor=\"middle\" font-size=\"11\">{ticks}</text>"
            ));
        }
    }

    fn axis(&mut self, y: u64) {
        for moment in (0..=self.end).filter(|moment| moment % 5 == 0) {
            let x = self.x(moment);
            self.add(format_args!(
                "<line x1=\"{x}\" y1=\"{TOP}\" x2=\"{x}\" y2=\"{y}\" stroke=\"#cccccc\"/>"
            ));
            self.text(x, y + 16, "middle", &moment.to_string());
        }
        self.text(LEFT - 10, y + 16, "end", "tick");
    }

    fn budget(&mut self, seen: &Seen, tenant: &Tenant, base: u64) {
        let stay = &tenant.stay;
        let colour = colour(seen, stay.identifier);
        let y = |usable: u64| base - usable * BUDGET / stay.capacity;
        self.text(LEFT - 10, base - BUDGET / 2, "end", &format!("{}", stay.identifier));
        let often = if stay.is_sporadic() { "in any" } else { "each" };
        let share = format!("{} {often} {}", stay.capacity, stay.period);
        self.text(LEFT - 10, base - BUDGET / 2 + 16, "end", &share);
        let mut path = String::new();
        for &(moment, usable) in &tenant.budget {
            write!(path, "{},{} ", self.x(moment), y(usable)).expect("a string takes all");
        }
        let (from, to, top) = (self.x(0), self.x(self.end), y(stay.capacity));
        for level in [base, top] {
            self.add(format_args!(
                "<line x1=\"{from}\" y1=\"{level}\" x2=\"{to}\" y2=\"{level}\" stroke=\"#999999\"/>"
            ));
        }
        let path = path.trim_end();
        self.add(format_args!(
            "<polyline points=\"{path}\" fill=\"none\" stroke=\"{colour}\" stroke-width=\"2\"/>"
        ));
        for &(moment, usable) in &tenant.told {
            let (x, y) = (self.x(moment), y(usable));
            self.add(format_args!("<circle cx=\"{x}\" cy=\"{y}\" r=\"4\" fill=\"{colour}\"/>"));
        }
    }
}

fn draw(seen: &Seen) -> String {
    let rows = seen.tenants.len() as u64;
    let base = TOP + CORE + rows * (BUDGET + GAP);
    let (wide, high) = (LEFT + WIDTH + 30, base + 40);
    let mut drawing = Drawing { svg: String::new(), end: seen.now };
    drawing.add(format_args!(
        "<svg xmlns=\"http://www.w3.org/2000/svg\" viewBox=\"0 0 {wide} {high}\" font-family=\"sans-serif\" font-size=\"14\">"
    ));
    drawing.add(format_args!("<rect width=\"{wide}\" height=\"{high}\" fill=\"#ffffff\"/>"));
    drawing.text(
        LEFT,
        28,
        "start",
        "Who held the core, tick by tick, from the lines that card wrote; grey is idle. Marks: ticks come back.",
    );
    drawing.text(
        LEFT,
        50,
        "start",
        "Below: usable budgets, counted from those ticks; a dot is what card told.",
    );
    drawing.axis(base + 6);
    drawing.core(seen);
    drawing.brought(seen);
    for (place, tenant) in seen.tenants.iter().enumerate() {
        drawing.budget(seen, tenant, TOP + CORE + (place as u64 + 1) * (BUDGET + GAP));
    }
    drawing.add(format_args!("</svg>"));
    drawing.svg
}

/// The picture of the run that the words say, by the program's lines.
pub fn run(program: &str, text: &str) -> Result<String, String> {
    let output = pipe::feed(program, &words::to_records(text)?)?;
    Ok(draw(&seen(text, &String::from_utf8_lossy(&output))?))
}

#[cfg(test)]
mod tests {
    use super::*;

    const WORDS: &str = "admit 0 id 1 T 10 C 3 pr 1\nwake 0 id 1\ntick 3\ntick 10\n";

    #[test]
    fn budgets_are_counted_from_the_lines() {
        let seen = seen(WORDS, "ok 0 - 0 - 0\nok 0 1 3 3 0\nok 3 - 0 10 0\nok 10 1 3 13 3\n").unwrap();
        assert_eq!(seen.held, [(0, 0, None), (0, 0, None), (0, 3, Some(1)), (3, 10, None)]);
        let budget: Vec<u64> = seen.tenants[0].budget.iter().map(|&(_, usable)| usable).collect();
        assert_eq!(budget, [3, 2, 1, 0, 0, 0, 0, 0, 0, 0, 0, 3]);
        assert_eq!(seen.tenants[0].told, [(0, 3), (10, 3)]);
        assert_eq!(seen.brought, [(10, 3)]);
        assert_eq!(draw(&seen).matches("<polygon").count(), 1);
        assert!(draw(&seen).ends_with("</svg>\n"));
    }

    #[test]
    fn a_polling_tenant_is_drawn_with_its_refills_and_losses() {
        let words = "admit 8 id 1 T 2 C 2 pr 1 kind 2\nwake 8 id 1\ntick 10\nblock 11 id 1\n";
        let seen = seen(words, "ok 8 - 0 - 0\nok 8 - 0 10 0\nok 10 1 2 12 2\nok 11 - 0 - 0\n").unwrap();
        let budget = [(8, 0), (9, 0), (10, 0), (10, 2), (11, 1), (11, 0)];
        assert_eq!((&seen.tenants[0].budget[..], &seen.brought[..]), (&budget[..], &[(10, 2)][..]));
        assert!(draw(&seen).contains("2 each 2"));
    }

    #[test]
    fn what_is_no_such_run_is_refused() {
        let behind = |last: &str| seen(WORDS, &format!("ok 0 - 0 - 0\nok 0 1 3 3 0\n{last}\n"));
        assert!(behind("ok 3 - 0 10 0\nok 10 1 3 13 3").is_ok());
        assert!(behind("ok 3 - 0 10 0\nok 10 1 2 12 3").is_err());
        assert!(behind("ok 3 - 0 10 0\nok 10 1 3 13 2").is_err());
        assert!(behind("ok 3 - 0 10 1\nok 10 1 3 13 3").is_err());
        assert!(behind("ok 3 - 0 10 0\nok 10 1 3 13").is_err());
        assert!(behind("no 2 0\nok 10 1 3 13 3").is_err());
        assert!(behind("ok 3 - 0 10 0").is_err());
        assert!(seen("remove 0 id 1\n", "no 7 0\n").is_err());
    }
}
