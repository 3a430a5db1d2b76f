//! Times the proved library and the independent implementation on the same inputs, in one run.
//!
//!     bench
//!
//! Each line has nanoseconds a call for both, the least of several rounds taken in turn, and their
//! ratio: ours / independent. Below 1 the proved library is the faster.

use std::hint::black_box;
use std::time::Instant;

use compare::calls::Call;
use compare::card::{MOST_ON_CARD, Row};
use compare::comma;
use compare::generate::entry::Entry;
use compare::generate::plan::Plan;
use compare::generate::weighings;
use compare::ours::Ours;
use compare::prng::Prng;
use compare::sheet::LONGEST_WRITTEN;
use compare::subject::{Independent, Subject};
use compare::tally::MOST_HELD;

/// Rounds taken for each measurement, ours and the independent one in turn: many short ones, so that
/// some of them run without another program in between.
const ROUNDS: usize = 250;
/// Sheets that are judged one after the other: as many different ones as make the processor's guesses those of a day's work.
const SHEETS: usize = 64;
/// How many results the lists and sheets have of which only the results grow.
const SIZES: [usize; 4] = [5, 20, 60, MOST_HELD];
/// About how long one round takes.
const ROUND_NANOSECONDS: f64 = 4e5;

fn main() {
    println!("{:54} {:>9} {:>12} {:>6}", "nanoseconds a call", "ours", "independent", "ratio");
    let mut prng = Prng::new(1);
    let mut balance = Prng::new(2);
    for held in [60, MOST_HELD] {
        let criticals = held - 4;
        let full: Vec<_> = (0..SHEETS).map(|_| Plan::filled(&mut prng, held)).collect();
        sheet_line(&format!("{held} results, 96 rows, {criticals} critical values"), &full);
        sheet_line("the same, one sheet again and again", &full[..1]);
        // What is weighed has a seed of its own.
        let weighed: Vec<_> = (0..SHEETS).map(|_| Plan::filled_weighed(&mut balance, held)).collect();
        sheet_line(&format!("{held} weighed, 96 rows, {criticals} critical values"), &weighed);
    }
    println!();
    for held in SIZES {
        let plans: Vec<_> = (0..SHEETS).map(|_| plain(&mut prng, held)).collect();
        sheet_line(&format!("{held} results, 1 row, 1 critical value"), &plans);
    }
    println!();
    // So have comma lists.
    let mut commas = Prng::new(3);
    for lines in SIZES {
        enter_list_line(&mut commas, lines);
    }
    println!();
    beside_lines(&mut prng);
    weighed_line(&mut balance);
    list_lines(&mut prng, &mut balance);
}

/// A sheet of purity results with one critical value and one row, so that only the results grow.
fn plain(prng: &mut Prng, held: usize) -> Plan {
    let mut plan = Plan::with_results(prng, held);
    plan.lot.attribute = 0;
    plan.lot.containers = 16 * MOST_HELD as u16;
    (plan.factor, plan.offset, plan.seeds) = (11, 11, 1_000);
    plan.criticals = vec![(held as u16, 155)];
    plan.rows = vec![Row { lowest: 5, highest: MOST_ON_CARD, mean_bound: 10_000, tolerated: 200 }];
    for (place, result) in plan.results.iter_mut().enumerate() {
        *result = Entry::entered(1 + place as u16 * 16, 9_800 - prng.below(200) as u16);
    }
    plan
}

/// The sheets of several plans, one after the other.
fn sheet_line(name: &str, plans: &[Plan]) {
    let sheets: Vec<_> = plans.iter().map(Plan::sheet).collect();
    let mut buf = vec![0; LONGEST_WRITTEN];
    line(&format!("judge    {name}"), sheets.len(), |subject| {
        sheets.iter().map(|sheet| subject.judge(black_box(sheet), &mut buf)).sum()
    });
    line(&format!("rewrite  {name}"), sheets.len(), |subject| {
        sheets.iter().map(|sheet| subject.rewrite(black_box(sheet), &mut buf)).sum()
    });
}

/// Comma lists entered on sheets that hold nothing, one after the other.
fn enter_list_line(prng: &mut Prng, lines: usize) {
    let pairs: Vec<_> = (0..SHEETS)
        .map(|_| {
            let mut plan = plain(prng, lines);
            let list = list_of(&plan);
            plan.results.clear();
            (plan.sheet(), list)
        })
        .collect();
    let mut buf = vec![0; LONGEST_WRITTEN];
    line(&format!("enter_list {lines} lines on a sheet without results"), pairs.len(), |subject| {
        pairs.iter().map(|(sheet, list)| subject.enter_list(black_box(sheet), list, &mut buf)).sum()
    });
}

/// A plan's results as a comma list.
fn list_of(plan: &Plan) -> Vec<u8> {
    comma::text(&plan.tally().expect("a good plan"))
}

/// The calls beside the tally, each over a thousand pairs of numbers, so that no branch is foretold.
fn beside_lines(prng: &mut Prng) {
    let mut pairs = |first: usize, second: usize| -> Vec<(u32, u32)> {
        (0..1_000).map(|_| (prng.below(first) as u32 + 1, prng.below(second) as u32 + 1)).collect()
    };
    let lots = pairs(3_000, 1_500);
    let labels = pairs(100, 130);
    let tests: Vec<_> = pairs(460, 40).into_iter().map(|(first, more)| (first, first + more)).collect();
    pairs_line("samples  any lot", &lots, |subject, first, second| subject.samples(first, second));
    pairs_line("label    any number", &labels, |subject, first, second| subject.label(first, second));
    pairs_line("pair     any average", &tests, |subject, first, second| subject.pair(first, second));
    for length in [5, 20, 60] {
        let results: Vec<u32> = (0..length).map(|place| 9_800 + place * 7 % 100).collect();
        line(&format!("mixing   {length} results"), 1, |subject| {
            Some(subject.mixing(black_box(&results), 100))
        });
    }
}

/// X of two weights, over a thousand pairs of them.
fn weighed_line(prng: &mut Prng) {
    let weighings: Vec<_> = (0..1_000).map(|_| weighings::of_share(prng, 9_800)).collect();
    line("weighed  any two weights", weighings.len(), |subject| {
        weighings.iter().map(|weighing| subject.weighed(black_box(weighing))).sum()
    });
}

fn pairs_line(name: &str, pairs: &[(u32, u32)], call: fn(&dyn Subject, u32, u32) -> i64) {
    line(name, pairs.len(), |subject| {
        Some(pairs.iter().map(|&(first, second)| call(subject, black_box(first), second)).sum())
    });
}

/// The calls on a tally, each as the time of a list with the call many times less that of the list without it.
fn list_lines(prng: &mut Prng, balance: &mut Prng) {
    println!();
    if Ours.calls(&[], &mut []).is_none() {
        println!("calls on a tally: the library has no such call");
        return;
    }
    println!(
        "one call on a tally: a list of calls with it many times less the list without, by their number"
    );
    for held in [60, MOST_HELD] {
        let full = Plan::filled(prng, held);
        let name = format!("open     96 rows, {} critical values", held - 4);
        call_line(&name, 20, &[], &vec![open(0, &full); 20].concat());
    }
    for held in SIZES {
        let plan = plain(prng, held);
        single_lines(&plan, balance);
        several_lines(&plan);
        text_lines(&plan);
        sampled_line(&plan);
    }
}

/// The calls on one result.
fn single_lines(plan: &Plan, balance: &mut Prng) {
    let held = plan.results.len();
    let opened = open(0, plan);
    let entered = [opened.clone(), enters(0, &plan.results)].concat();
    call_line(&format!("enter    the 1st to the {held}th"), held, &opened, &entered);
    let mut by_weight = plan.clone();
    by_weight.weigh(balance, 1, weighings::of_share);
    let weighed = [opened.clone(), enters(0, &by_weight.results)].concat();
    call_line(&format!("weigh    the 1st to the {held}th"), held, &opened, &weighed);
    let withdrawn = plan.results.iter().map(|entry| Call::Withdraw { on: 0, container: entry.container });
    let emptied = [entered.clone(), withdrawn.collect()].concat();
    call_line(&format!("withdraw {held} held, down to none"), held, &entered, &emptied);
}

/// The calls that add several results: each is made on a tally just opened, and so with an open as often as without.
fn several_lines(plan: &Plan) {
    let held = plan.results.len();
    let other = [open(1, plan), enters(1, &plan.results)].concat();
    let again = |call: &[Call]| {
        let opened_and_call = [open(0, plan), call.to_vec()].concat();
        [other.clone(), vec![opened_and_call; 100].concat()].concat()
    };
    let join = again(&[Call::Join { on: 0, other: 1 }]);
    call_line(&format!("join     {held} held into none"), 100, &again(&[]), &join);
    let list = again(&[Call::List { on: 0, lines: list_of(plan) }]);
    call_line(&format!("list     {held} lines into none"), 100, &again(&[]), &list);
}

/// The calls that write a text.
fn text_lines(plan: &Plan) {
    let held = plan.results.len();
    let entered = [open(0, plan), enters(0, &plan.results)].concat();
    let texts = [
        (format!("report   {held} held"), Call::Report { on: 0, room: 100 }),
        (
            format!("write    {held} held, 1 row, 1 critical value"),
            Call::Write { on: 0, room: LONGEST_WRITTEN as u16 },
        ),
        (format!("writelist {held} held"), Call::WriteList { on: 0, room: comma::LONGEST_WRITTEN as u16 }),
    ];
    for (name, call) in texts {
        let written = [entered.clone(), vec![call; 100]].concat();
        call_line(&name, 100, &entered, &written);
    }
}

/// A result entered and a report drawn, as after each sample: the last result that the plan holds, each time on a
/// tally just opened, into which those before it are joined.
fn sampled_line(plan: &Plan) {
    let held = plan.results.len();
    let (last, before) = plan.results.split_last().expect("the plan has results");
    let other = [open(1, plan), enters(1, before)].concat();
    let joined = [open(0, plan), vec![Call::Join { on: 0, other: 1 }]].concat();
    let sampled = [joined.clone(), vec![last.call(0), Call::Report { on: 0, room: 100 }]].concat();
    let again = |calls: Vec<Call>| [other.clone(), vec![calls; 100].concat()].concat();
    call_line(&format!("sample   the {held}th entered, and a report"), 100, &again(joined), &again(sampled));
}

fn open(on: usize, plan: &Plan) -> Vec<Call> {
    vec![Call::Open { on, lot: plan.lot, card: Box::new(plan.card()) }]
}

fn enters(on: usize, results: &[Entry]) -> Vec<Call> {
    results.iter().map(|entry| entry.call(on)).collect()
}

/// Measures the `number` calls that `with` has and `without` has not, and prints a line for one of them.
fn call_line(name: &str, number: usize, without: &[Call], with: &[Call]) {
    let [short, long] = [without, with].map(list_times);
    let difference = |which: usize| (long[which] - short[which]) / number as f64;
    print_times(name, [difference(0), difference(1)]);
}

/// Nanoseconds for a whole list of calls, by both subjects.
fn list_times(calls: &[Call]) -> [f64; 2] {
    let mut list = Vec::new();
    calls.iter().for_each(|call| call.encode(&mut list));
    let mut buf = vec![0; calls.iter().map(|call| 3 + call.room().unwrap_or(0)).sum()];
    least_times(|subject| subject.calls(black_box(&list), &mut buf))
}

/// Measures a call on both subjects and prints a line. `number` is how many calls `call` stands for.
fn line(name: &str, number: usize, mut call: impl FnMut(&dyn Subject) -> Option<i64>) {
    if call(&Ours).is_none() {
        println!("{name:54} the library has no such call");
        return;
    }
    print_times(name, least_times(call).map(|time| time / number as f64));
}

fn print_times(name: &str, [ours, independent]: [f64; 2]) {
    println!("{name:54} {ours:>9.1} {independent:>12.1} {:>6.2}", ours / independent);
}

/// Nanoseconds for a call on each subject, the least of all rounds.
fn least_times(mut call: impl FnMut(&dyn Subject) -> Option<i64>) -> [f64; 2] {
    let subjects: [&dyn Subject; 2] = [&Ours, &Independent];
    // Each subject's call as often in a round as fills its time.
    let times = subjects.map(|subject| {
        let once = round(&mut call, subject, 20);
        ((ROUND_NANOSECONDS / once) as usize).clamp(5, 100_000)
    });
    let mut least = [f64::INFINITY; 2];
    for _ in 0..ROUNDS {
        for which in [0, 1] {
            least[which] = least[which].min(round(&mut call, subjects[which], times[which]));
        }
    }
    least
}

/// Nanoseconds for each time over one round.
fn round(call: &mut impl FnMut(&dyn Subject) -> Option<i64>, subject: &dyn Subject, times: usize) -> f64 {
    let began = Instant::now();
    for _ in 0..times {
        black_box(call(black_box(subject)));
    }
    began.elapsed().as_nanos() as f64 / times as f64
}
