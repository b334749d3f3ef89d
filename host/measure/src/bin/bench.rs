//! What each call costs, as tables: instructions and, where they are taken, times beside the second referee's.
//! `bench` alone prints the calls, a line each, for `painted.c` and `timed.c` to make; `bench ANSWERS COUNTS [TIMES]`
//! prints the tables from the files that those two and `counter.c` wrote.

use host::rules::referee::rule;
use measure::cases::{among_friends, cases, tiny, two_players, Case, SIZES};
use measure::crowds::crowds;
use measure::deep::line;
use measure::figures::{figures, Figures};
use std::error::Error;
use std::fs::read_to_string;
use std::time::Instant;

/// A case and what it took.
type Row = (Case, Figures);

/// The cases of each size.
fn of_sizes() -> [Vec<Case>; 3] {
    SIZES.map(|(side, count)| cases(side, count))
}

/// The other cases, by the title of their table.
fn others() -> [(&'static str, Vec<Case>); 4] {
    [
        ("Tiny map", tiny()),
        ("Two players", two_players()),
        ("Retreats among friends", among_friends()),
        ("Crowd", crowds()),
    ]
}

/// All of them, in the order of the tables.
fn all() -> Vec<Case> {
    of_sizes().into_iter().chain(others().map(|(_, cases)| cases)).flatten().collect()
}

/// Nanoseconds of one call of the second referee, over enough calls to last a twentieth of a second.
fn second_time(case: &Case) -> u64 {
    let mut lent = case.lent();
    let start = Instant::now();
    let mut calls = 0;
    while start.elapsed().as_millis() < 50 {
        let mut position = case.position.clone();
        std::hint::black_box(rule(&mut position, &case.order, &mut lent));
        calls += 1;
    }
    start.elapsed().as_nanos() as u64 / calls
}

/// A number with commas between its thousands.
fn grouped(number: u64) -> String {
    if number < 1000 {
        return number.to_string();
    }
    format!("{},{:03}", grouped(number / 1000), number % 1000)
}

/// How many times as much the second is.
fn growth(small: u64, large: u64) -> String {
    format!("{:.1}", large as f64 / small as f64)
}

/// The nanoseconds of both referees, or no cells.
fn times((case, figures): &Row) -> Vec<String> {
    figures.time.map_or(Vec::new(), |time| [time, second_time(case)].map(grouped).to_vec())
}

/// A row of a Markdown table.
fn print_row(cells: &[String]) {
    println!("| {} |", cells.join(" | "));
}

/// The title and the head of a Markdown table.
fn print_head(title: &str, names: &[String]) {
    println!("{title}:\n");
    print_row(names);
    println!("|{}", "---|".repeat(names.len()));
}

/// The first cells of a row.
fn place((case, _): &Row) -> [String; 2] {
    [case.call.into(), case.ground.into()]
}

/// Instructions of every call on every map, and how they grow with its size.
fn instruction_table([small, middle, large]: [&[Row]; 3]) {
    let [a, b, c] = SIZES.map(|(side, units)| format!("{side} x {side}, {units}"));
    print_head("Instructions", &["call".into(), "map".into(), a, b, c, "growth".into(), "growth".into()]);
    for (number, row) in small.iter().enumerate() {
        let [a, b, c] = [row, &middle[number], &large[number]].map(|(_, figures)| figures.instructions);
        let numbers = [grouped(a), grouped(b), grouped(c), growth(a, b), growth(b, c)];
        print_row(&[place(row).as_slice(), &numbers].concat());
    }
}

/// Nanoseconds of every call on every map, beside the second referee's.
fn time_table(of_sizes: [&[Row]; 3]) {
    let sizes = SIZES.map(|(side, _)| [format!("{side} x {side}"), "second referee".into()]);
    print_head("Nanoseconds", &[&[["call".into(), "map".into()]], sizes.as_slice()].concat().concat());
    for (number, row) in of_sizes[0].iter().enumerate() {
        let times = of_sizes.map(|rows| times(&rows[number])).concat();
        print_row(&[place(row).as_slice(), &times].concat());
    }
}

/// Instructions of a group of cases, and nanoseconds where they are taken.
fn short_table(title: &str, rows: &[Row]) {
    let timed = rows.iter().all(|(_, figures)| figures.time.is_some());
    let names = ["call", "instructions", "ns", "ns, second referee"].map(String::from);
    print_head(title, &names[..if timed { 4 } else { 2 }]);
    for row in rows {
        print_row(&[&[row.0.call.into(), grouped(row.1.instructions)], times(row).as_slice()].concat());
    }
}

fn print_tables(figures: Vec<Figures>) {
    let timed = figures.iter().all(|figures| figures.time.is_some());
    let mut figures = figures.into_iter();
    let mut rows = |cases: Vec<Case>| cases.into_iter().zip(figures.by_ref()).collect::<Vec<Row>>();
    let [small, middle, large] = of_sizes().map(&mut rows);
    let of_sizes = [small.as_slice(), &middle, &large];
    instruction_table(of_sizes);
    if timed {
        println!();
        time_table(of_sizes);
    }
    for (title, cases) in others() {
        println!();
        short_table(title, &rows(cases));
    }
}

fn main() -> Result<(), Box<dyn Error>> {
    let files: Vec<String> = std::env::args().skip(1).map(read_to_string).collect::<Result<_, _>>()?;
    let (answers, counts, times) = match files.as_slice() {
        [] => {
            all().iter().for_each(|case| println!("{}", line(case)));
            return Ok(());
        }
        [answers, counts] => (answers, counts, None),
        [answers, counts, times] => (answers, counts, Some(times.as_str())),
        _ => return Err("bench [ANSWERS COUNTS [TIMES]]".into()),
    };
    let refusals: Vec<u64> = all().iter().map(Case::refusal).collect();
    print_tables(figures(&refusals, answers, counts, times)?);
    Ok(())
}
