//! `time-sizing`: the best interface of either form on the worst lists found, by the given
//! program, by the same algorithm here and by the plain reading.

use super::bad_lists::{self, List, P_MAX};
use super::plain_work::plain_work;
use super::twin;
use second::pipe;
use second::shares::{self, Form};
use std::hint::black_box;
use std::time::Instant;

pub struct Plan {
    pub program: String,
    pub seed: u64,
    pub families: u64,
    pub changes: u64,
    pub rounds: u64,
    /// The most seconds that a run of the plain reading should take.
    pub plain: u64,
    pub full: bool,
}

struct Row {
    lengths: u64,
    program: f64,
    twin: f64,
    plain: f64,
}

fn seconds(action: impl FnOnce()) -> f64 {
    let start = Instant::now();
    action();
    start.elapsed().as_secs_f64()
}

/// One run of the program over the same query many times; seconds for all.
fn program_run(program: &str, query: &str, times: u64) -> Result<(f64, Vec<u8>), String> {
    let input = format!("{query}\n").repeat(times as usize);
    let start = Instant::now();
    let output = pipe::feed(program, input.as_bytes())?;
    Ok((start.elapsed().as_secs_f64(), output))
}

fn twin_run(list: &List, times: u64) -> f64 {
    seconds(|| {
        for _ in 0..times {
            black_box(twin::best(
                black_box(list.form),
                black_box(&list.periods),
                black_box(&list.costs),
                black_box(P_MAX),
            ));
        }
    })
}

fn plain_run(list: &List, p_max: u32) -> f64 {
    let wide = list.wide();
    seconds(|| {
        let tasks = black_box(wide.lend());
        black_box(shares::best(list.form, tasks, black_box(p_max.into()))).ok();
    })
}

/// The right answers, `times` of them.
fn expected(list: &List, times: u64) -> String {
    let line = match twin::best(list.form, &list.periods, &list.costs, P_MAX) {
        (0, _) => "no 34 0\n".to_string(),
        (p, b) => format!("ok {p} {b}\n"),
    };
    line.repeat(times as usize)
}

/// Seconds for one query of the program and of the twin, the least of some rounds. What a
/// run with no work takes is taken off the program's.
fn time_fast(plan: &Plan, list: &List) -> Result<(f64, f64), String> {
    let query = list.query(P_MAX);
    let once = twin_run(list, 1).max(1e-6);
    let times = ((0.1 / once) as u64).clamp(1, 20_000);
    let (mut program, mut empty, mut own) = (f64::MAX, f64::MAX, f64::MAX);
    for _ in 0..plan.rounds {
        let (taken, output) = program_run(&plan.program, &query, times)?;
        if output != expected(list, times).as_bytes() {
            return Err(format!("{query}: the program's answer is not the twin's"));
        }
        program = program.min(taken);
        empty = empty.min(program_run(&plan.program, "supply 1 1 1", 1)?.0);
        own = own.min(twin_run(list, times));
    }
    Ok(((program - empty) / times as f64, own / times as f64))
}

/// Seconds for the plain reading at P_max 2,000. It is run with a growing P_max (twice as
/// large takes up to eight times as long); its steps at 2,000 are counted, and the least
/// time of a step seen, which is kind to it, gives the time.
fn time_plain(plan: &Plan, list: &List) -> f64 {
    let whole = plain_work(list, P_MAX);
    println!("  plain reading: {whole} steps at P_max 2000");
    let mut least = f64::MAX;
    let mut p_max = 20;
    loop {
        let (work, taken) = (plain_work(list, p_max), plain_run(list, p_max));
        let step = taken / work as f64;
        println!(
            "    P_max {p_max:>4}: {work:>14} steps {taken:>9.3} s {:>6.3} ns a step",
            step * 1e9
        );
        least = least.min(step);
        if p_max == P_MAX || p_max >= 80 && !plan.full && taken * 8.0 > plan.plain as f64 {
            break;
        }
        p_max = (p_max * 2).min(P_MAX);
    }
    let scaled = least * whole as f64;
    println!(
        "    {:.3} ns a step give {scaled:.3} s at P_max 2000; the longest run had P_max {p_max}",
        least * 1e9
    );
    scaled
}

fn time_list(plan: &Plan, name: &str, list: &List) -> Result<Row, String> {
    let lengths = list.lengths();
    println!("{name}: {lengths} lengths looked at by the fast search");
    println!("  {}", list.query(P_MAX));
    let (program, twin) = time_fast(plan, list)?;
    let plain = time_plain(plan, list);
    Ok(Row {
        lengths,
        program,
        twin,
        plain,
    })
}

/// Lists that are hard for the plain reading, whatever they cost the fast search.
fn hard_for_plain() -> List {
    List::new((0..16).map(|k| (1925 + 5 * k, 40)).collect())
}

fn answers_with(kilobytes: u32, program: &str, list: &List) -> bool {
    let script = format!("ulimit -s {kilobytes} && exec {program}");
    let query = list.query(P_MAX) + "\n";
    let output = pipe::feed_command(&["sh", "-c", &script], query.as_bytes());
    output.is_ok_and(|output| output == expected(list, 1).as_bytes())
}

/// Two buffers and two tables do not fit in 64 KB: where it answers so, the limit did not reach it (an emulator has its own).
fn small_stack(program: &str, list: &List) -> Result<String, String> {
    if answers_with(64, program, list) {
        return Ok(
            "a limit on the stack does not reach the program here: not looked at".to_string(),
        );
    }
    if answers_with(256, program, list) {
        return Ok("with a stack of 256 KB: the same answer".to_string());
    }
    Err("with a stack of 256 KB: another answer or none".to_string())
}

fn table(rows: &[(String, Row)]) {
    println!();
    println!("One best interface, 16 tasks, P_max 2000");
    println!();
    println!("| List | Lengths looked at | Proved | Twin | Plain | Plain/proved | Proved/twin |");
    println!("|---|---|---|---|---|---|---|");
    for (name, row) in rows {
        println!(
            "| {name} | {} | {:.3} ms | {:.3} ms | {:.1} s | {:.0} | {:.2} |",
            row.lengths,
            row.program * 1e3,
            row.twin * 1e3,
            row.plain,
            row.plain / row.program,
            row.program / row.twin
        );
    }
    println!();
}

fn worst_found(plan: &Plan, form: Form) -> Vec<List> {
    let start = Instant::now();
    let found = bad_lists::search(form, plan.seed, plan.families, plan.changes);
    let tried = plan.families + plan.changes * found.len() as u64;
    println!(
        "searched {tried} lists in {:.1} s, seed {}, {form:?}",
        start.elapsed().as_secs_f64(),
        plan.seed
    );
    found.into_iter().map(|(_, list)| list).collect()
}

/// What a row is called, and its list: the ordinary form first, then the aligned one and what the
/// ordinary one makes of the same tasks.
fn lists(plan: &Plan) -> Vec<(String, List)> {
    let ordinary = worst_found(plan, Form::Ordinary);
    let names = (1..=3).map(|place| format!("worst {place}"));
    let mut lists: Vec<(String, List)> = names.zip(ordinary).collect();
    lists.push(("long periods".to_string(), hard_for_plain()));
    let aligned = worst_found(plan, Form::Aligned).swap_remove(0);
    let same = aligned.clone().in_form(Form::Ordinary);
    lists.push(("aligned, worst".to_string(), aligned));
    lists.push(("the same, ordinary".to_string(), same));
    lists
}

pub fn run(plan: &Plan) -> Result<String, String> {
    let lists = lists(plan);
    let mut rows = Vec::new();
    for (name, list) in &lists {
        rows.push((name.clone(), time_list(plan, name, list)?));
    }
    table(&rows);
    println!("{}", small_stack(&plan.program, &lists[0].1)?);
    let worst = &rows[0].1;
    Ok(format!(
        "time-sizing: worst list {:.3} ms, plain/proved {:.0}, proved/twin {:.2}",
        worst.program * 1e3,
        worst.plain / worst.program,
        worst.program / worst.twin
    ))
}
