//! Times the proved library beside the unverified versions.

mod agree;
mod closure;
mod dice;
mod fast;
mod inputs;
mod proved;
mod shelf;
#[cfg(test)]
mod tests;
mod timing;

use agree::Score;
use inputs::scripts::{Run, Stock};
use inputs::{Inputs, One, Pair};
use std::collections::BTreeMap;
use std::fmt::Display;
use std::hint::black_box;
use std::io::Write;
use std::path::{Path, PathBuf};
use std::process::{exit, Command, Stdio};
use std::time::{Duration, Instant};
use timing::{race, Plan, Time};

const USAGE: &str = "usage: bench [--quick] [--verdict PROGRAM] [--only TEXT] [--spin CALLS]
  --quick            fewer sizes and rounds
  --verdict PROGRAM  also times this program, end to end
  --only TEXT        only inputs whose name contains TEXT
  --spin CALLS       no timing: calls the library alone so often on each input, for a profiler";

struct Flags {
    quick: bool,
    verdict: Option<PathBuf>,
    only: String,
    spin: Option<usize>,
}

/// One line of the table, with a time for each version. With several observers it also has the times of each alone together.
struct Line {
    name: String,
    family: &'static str,
    n: usize,
    m: usize,
    times: [Time; 3],
    alone: Option<[Time; 3]>,
}

impl Line {
    fn ratio(&self, version: usize) -> f64 {
        self.times[0].best / self.times[version].best
    }

    fn ratio_to_faster(&self) -> f64 {
        self.ratio(1).max(self.ratio(2))
    }

    /// A version's time for several observers by its times for each alone together.
    fn ratio_to_alone(&self, version: usize) -> Option<f64> {
        Some(self.times[version].best / self.alone?[version].best)
    }
}

/// One way to do the job.
pub struct Version {
    pub name: &'static str,
    pub check: fn(&[u8]) -> u32,
    pub explain: Writer,
    pub join: fn(&[u8], &[u8], &mut [u8]) -> u32,
    pub closure: Writer,
    /// Of a script, a shelf and a buffer.
    pub run: fn(&[u8], &mut [u8], &mut [u8]) -> u32,
    pub count: Writer,
    /// Of a shelf, a number and a buffer.
    pub part: fn(&[u8], usize, &mut [u8]) -> u32,
}

/// A call on a record or a shelf that writes to a buffer.
pub type Writer = fn(&[u8], &mut [u8]) -> u32;

/// The proved library first.
pub static VERSIONS: [Version; 3] = [
    Version {
        name: "library",
        check: proved::check,
        explain: proved::explain,
        join: proved::join,
        closure: proved::closure,
        run: proved::run,
        count: proved::count,
        part: proved::part,
    },
    Version {
        name: "plain",
        check: fast::check_plain,
        explain: fast::explain_plain,
        join: fast::join_plain,
        closure: fast::closure_plain,
        run: shelf::run_plain,
        count: shelf::count,
        part: shelf::part_plain,
    },
    Version {
        name: "sharp",
        check: fast::check_sharp,
        explain: fast::explain_sharp,
        join: fast::join_sharp,
        closure: fast::closure_sharp,
        run: shelf::run_sharp,
        count: shelf::count,
        part: shelf::part_sharp,
    },
];

/// The longest output, the closures of four observers, has so many bytes.
const LONGEST: usize = 4 * 64 * closure::PIECE;

/// From so many states on a record is not tiny.
const SMALL: usize = 8;

fn main() {
    let flags = flags();
    let (ns, ms): (&[usize], &[usize]) = if flags.quick { (&[8, 64], &[8, 32]) } else { (&[8, 16, 32, 64], &[8, 16, 32]) };
    let inputs = Inputs::new(ns, ms, &flags.only);
    if let Some(calls) = flags.spin {
        spin(&inputs, calls);
        return;
    }

    if let Some(program) = &flags.verdict {
        // Where it is missing, better now than after the timing.
        run(program, &[]);
    }
    compare(&inputs, if flags.quick { 1_000 } else { 5_000 });
    let plan = Plan { batch: Duration::from_millis(1), rounds: if flags.quick { 5 } else { 15 } };
    println!();
    println!("hookup_check lies at {} mod 64.", proved::place());
    println!("Nanoseconds for a call, best (median) of {} rounds; each ratio is the library's best by the version's best", plan.rounds);
    let checks = time_checks(plan, &inputs.checks);
    let explanations = time_writer(plan, "explain", &inputs.explanations, |version| version.explain);
    let joins = time_joins(plan, &inputs.joins);
    let closures = time_writer(plan, "closure", &inputs.closures, |version| version.closure);
    let runs = time_runs(plan, &inputs.runs);
    let counts = time_stocks(plan, "count", &inputs.counts, |version, stock| writer_job(version.count, &stock.shelf));
    let parts = time_stocks(plan, "part", &inputs.parts, part_job);
    if flags.only.is_empty() {
        growth(checks.iter().chain(&closures).filter(|line| line.alone.is_none()), ns, ms);
    }
    if let Some(program) = &flags.verdict {
        end_to_end(program, &inputs.checks, if flags.quick { 50 } else { 300 });
    }
    let calls = [
        ("check", checks),
        ("explain", explanations),
        ("join", joins),
        ("closure", closures),
        ("run", runs),
        ("count", counts),
        ("part", parts),
    ];
    by_family(&calls);
    by_observer(&calls);
    sum_up(&calls);
}

fn flags() -> Flags {
    let mut flags = Flags { quick: false, verdict: None, only: String::new(), spin: None };
    let mut words = std::env::args().skip(1);
    while let Some(word) = words.next() {
        let mut value = || words.next().unwrap_or_else(|| usage(&format!("{word} needs a value")));
        match word.as_str() {
            "--quick" => flags.quick = true,
            "--verdict" => flags.verdict = Some(value().into()),
            "--only" => flags.only = value(),
            "--spin" => flags.spin = Some(value().parse().unwrap_or_else(|_| usage("--spin needs a number"))),
            _ => usage(&format!("unknown flag {word}")),
        }
    }
    flags
}

fn usage(message: &str) -> ! {
    eprintln!("{message}\n{USAGE}");
    exit(2)
}

/// Ends the run where an answer or a byte differs.
fn compare(inputs: &Inputs, rounds: usize) {
    let mut score = Score::of(&VERSIONS);
    score.timed(inputs);
    for kind in 1..=3 {
        score.random(kind as u64, rounds, kind);
        score.random_shelves(kind as u64, rounds, kind);
    }
    println!("Compared with the library, as answer:times");
    let answers = [
        ("checks", &score.checks),
        ("explanations", &score.explanations),
        ("joins", &score.joins),
        ("closures", &score.closures),
        ("runs", &score.runs),
        ("clears in runs", &score.clears),
        ("loads in runs", &score.loads),
        ("hookups in runs", &score.hookups),
        ("counts", &score.counts),
        ("parts", &score.parts),
    ];
    for (calls, counts) in answers {
        show_counts(calls, counts, " ");
    }
    show_counts("of these parts mislabelled on purpose", &score.mislabelled, ", ");
    show_counts("records of kinds 2 and 3 spoilt on purpose", &score.spoilt, ", ");
    if score.differences > 0 {
        println!("{} differences", score.differences);
        exit(1);
    }
}

fn show_counts(what: &str, counts: &BTreeMap<impl Display, usize>, between: &str) {
    let parts: Vec<String> = counts.iter().map(|(key, times)| format!("{key}:{times}")).collect();
    println!("  {} {what}  {}", counts.values().sum::<usize>(), parts.join(between));
}

fn spin(inputs: &Inputs, calls: usize) {
    let library = &VERSIONS[0];
    for one in &inputs.checks {
        repeat_check(library, &one.record, calls);
    }
    let mut out = vec![0; LONGEST];
    for one in &inputs.explanations {
        repeat_writer(library.explain, &one.record, &mut out, calls);
    }
    for pair in &inputs.joins {
        repeat_join(library, &pair.a, &pair.b, &mut out, calls);
    }
    for one in &inputs.closures {
        repeat_writer(library.closure, &one.record, &mut out, calls);
    }
    for run in &inputs.runs {
        run_job(library, run)(calls);
    }
    for stock in &inputs.counts {
        repeat_writer(library.count, &stock.shelf, &mut out, calls);
    }
    for stock in &inputs.parts {
        part_job(library, stock)(calls);
    }
}

fn repeat_check(version: &Version, record: &[u8], calls: usize) {
    for _ in 0..calls {
        black_box((version.check)(black_box(record)));
    }
}

fn repeat_join(version: &Version, a: &[u8], b: &[u8], out: &mut [u8], calls: usize) {
    for _ in 0..calls {
        black_box((version.join)(black_box(a), black_box(b), black_box(out)));
    }
}

fn repeat_writer(writer: Writer, record: &[u8], out: &mut [u8], calls: usize) {
    for _ in 0..calls {
        black_box(writer(black_box(record), black_box(out)));
    }
}

/// Makes a number of calls of one version.
type Job<'a> = Box<dyn FnMut(usize) + 'a>;

fn check_job<'a>(version: &'static Version, record: &'a [u8]) -> Job<'a> {
    Box::new(move |calls| repeat_check(version, record, calls))
}

fn join_job<'a>(version: &'static Version, (a, b): (&'a [u8], &'a [u8])) -> Job<'a> {
    let mut out = vec![0; LONGEST];
    Box::new(move |calls| repeat_join(version, a, b, &mut out, calls))
}

fn writer_job(writer: Writer, record: &[u8]) -> Job<'_> {
    let mut out = vec![0; LONGEST];
    Box::new(move |calls| repeat_writer(writer, record, &mut out, calls))
}

/// Each run clears the shelf or leaves it as it is.
fn run_job<'a>(version: &'static Version, run: &'a Run) -> Job<'a> {
    let (mut shelf, mut answers) = (run.shelf.clone(), vec![0; run.room]);
    Box::new(move |calls| {
        for _ in 0..calls {
            black_box((version.run)(black_box(&run.script), black_box(&mut shelf), black_box(&mut answers)));
        }
    })
}

fn part_job<'a>(version: &'static Version, stock: &'a Stock) -> Job<'a> {
    let mut out = [0; 16];
    Box::new(move |calls| {
        for _ in 0..calls {
            black_box((version.part)(black_box(&stock.shelf), black_box(stock.i), black_box(&mut out)));
        }
    })
}

/// One job after the other.
fn together<'a>(jobs: impl Iterator<Item = Job<'a>>) -> Job<'a> {
    let mut jobs: Vec<Job> = jobs.collect();
    Box::new(move |calls| jobs.iter_mut().for_each(|job| job(calls)))
}

/// Times the versions on an input; and on the inputs of each observer alone, if there are any, in the same rounds.
fn time<'a, R: Copy>(plan: Plan, input: R, alone: &[R], job: impl Fn(&'static Version, R) -> Job<'a>) -> ([Time; 3], Option<[Time; 3]>) {
    let [x, y, z] = VERSIONS.each_ref().map(|version| job(version, input));
    if alone.is_empty() {
        return (race(plan, [x, y, z]), None);
    }
    let [p, q, r] = VERSIONS.each_ref().map(|version| together(alone.iter().map(|&input| job(version, input))));
    let [x, y, z, p, q, r] = race(plan, [x, y, z, p, q, r]);
    ([x, y, z], Some([p, q, r]))
}

fn time_checks(plan: Plan, ones: &[One]) -> Vec<Line> {
    heading("check");
    ones.iter().map(|one| time_one(plan, one, check_job)).collect()
}

fn time_writer(plan: Plan, title: &str, ones: &[One], writer: fn(&Version) -> Writer) -> Vec<Line> {
    heading(title);
    ones.iter().map(|one| time_one(plan, one, |version, record| writer_job(writer(version), record))).collect()
}

fn time_one<'a>(plan: Plan, one: &'a One, job: impl Fn(&'static Version, &'a [u8]) -> Job<'a>) -> Line {
    let alone: Vec<&[u8]> = one.alone.iter().map(|record| &record[..]).collect();
    let (times, alone) = time(plan, &one.record[..], &alone, job);
    let line = Line { name: one.name(), family: one.family, n: one.n, m: one.m, times, alone };
    show(&line, &one.answer.to_string());
    line
}

fn time_joins(plan: Plan, pairs: &[Pair]) -> Vec<Line> {
    heading("join, and below it its two checks alone");
    let time_pair = |pair: &Pair| {
        let alone: Vec<(&[u8], &[u8])> = pair.alone.iter().map(|(a, b)| (&a[..], &b[..])).collect();
        let (times, alone) = time(plan, (&pair.a[..], &pair.b[..]), &alone, join_job);
        let line = Line { name: pair.name.clone(), family: pair.family, n: pair.n, m: 0, times, alone };
        show(&line, &pair.answer.to_string());
        let checks = |version, (a, b)| together([a, b].into_iter().map(|record| check_job(version, record)));
        show_times("  its checks", time(plan, (&pair.a[..], &pair.b[..]), &[], checks).0);
        line
    };
    pairs.iter().map(time_pair).collect()
}

fn time_runs(plan: Plan, runs: &[Run]) -> Vec<Line> {
    heading("run");
    let time_run = |run: &Run| {
        let (times, alone) = time(plan, run, &[], run_job);
        let line = Line { name: run.name.clone(), family: run.family, n: run.n, m: 0, times, alone };
        show(&line, &run.answer.to_string());
        line
    };
    runs.iter().map(time_run).collect()
}

fn time_stocks<'a>(plan: Plan, call: &'static str, stocks: &'a [Stock], job: fn(&'static Version, &'a Stock) -> Job<'a>) -> Vec<Line> {
    heading(call);
    let time_stock = |stock: &'a Stock| {
        let (times, alone) = time(plan, stock, &[], job);
        let line = Line { name: stock.name.clone(), family: call, n: 2, m: 0, times, alone };
        show(&line, &stock.answer.to_string());
        line
    };
    stocks.iter().map(time_stock).collect()
}

fn heading(title: &str) {
    println!();
    println!("{:<40} {:>6} {:>19} {:>19} {:>6} {:>19} {:>6}", title, "answer", "library", "plain", "ratio", "sharp", "ratio");
}

fn show(line: &Line, answer: &str) {
    let [x, y, z] = line.times.map(cell);
    println!("{:<40} {answer:>6} {x:>19} {y:>19} {:>6.2} {z:>19} {:>6.2}", line.name, line.ratio(1), line.ratio(2));
    if let Some(times) = line.alone {
        show_times("  each alone", times);
    }
}

fn show_times(name: &str, times: [Time; 3]) {
    let [x, y, z] = times.map(cell);
    println!("{name:<40} {:>6} {x:>19} {y:>19} {:>6} {z:>19}", "", "");
}

fn cell(time: Time) -> String {
    format!("{} ({})", number(time.best), number(time.median))
}

fn number(ns: f64) -> String {
    if ns < 1_000.0 {
        format!("{ns:.1}")
    } else {
        format!("{ns:.0}")
    }
}

/// The factor from each size to the next.
fn growth<'a>(lines: impl Iterator<Item = &'a Line> + Clone, ns: &[usize], ms: &[usize]) {
    let best: BTreeMap<_, _> = lines.clone().map(|line| ((line.family, line.n, line.m), line.times)).collect();
    let mut families: Vec<&str> = lines.filter(|line| line.n >= SMALL).map(|line| line.family).collect();
    families.dedup();
    let (n, m) = (ns[ns.len() - 1], ms[ms.len() - 1]);
    let factors = |family: &'static str, version: usize, sizes: &[(usize, usize)]| -> String {
        let time = |(n, m)| best[&(family, n, m)][version].best;
        sizes.windows(2).map(|two| format!("{:>6.2}", time(two[1]) / time(two[0]))).collect()
    };
    let by_n: Vec<_> = ns.iter().map(|&n| (n, m)).collect();
    let by_m: Vec<_> = ms.iter().map(|&m| (n, m)).collect();
    println!();
    println!(
        "Growth of the best time, as the factor from each size to the next: n through {ns:?} at m = {m} | m through {ms:?} at n = {n}"
    );
    println!("{:<20}{}", "", VERSIONS.each_ref().map(|version| format!("{:<36}", version.name)).concat());
    for family in families {
        let columns = [0, 1, 2].map(|k| format!("{:<36}", format!("{} |{}", factors(family, k, &by_n), factors(family, k, &by_m))));
        println!("{family:<20}{}", columns.concat());
    }
}

/// The records on which the program is timed.
const CHOSEN: [&str; 14] = [
    "tiny n=1 m=0",
    "tiny n=2 m=2",
    "full output own n=64 m=32",
    "sparse mixed n=64 m=32",
    "line full n=64 m=32",
    "late rule 1 n=64 m=32",
    "late rule 2 n=64 m=32",
    "late rule 3 n=64 m=32",
    "late rule 4 n=64 m=32",
    "late rule 5 n=64 m=32",
    "four full output n=64 m=32",
    "four late rule 5 n=64 m=32",
    "limited full output n=64 m=32",
    "limited late rule 5 n=64 m=32",
];

/// Times the program beside one that does nothing.
fn end_to_end(program: &Path, ones: &[One], runs: usize) {
    println!();
    println!("Microseconds for a run of a process, best (median) of {runs}");
    println!("{:<28}{:>16}{:>16}{:>16}   line", "", "verdict", "true", "difference");
    for one in ones.iter().filter(|one| CHOSEN.contains(&one.name().as_str())) {
        let wanted = match one.answer {
            0 => "pass\n".to_string(),
            answer => format!("rule {} ", answer - 100),
        };
        let mut spent = [Vec::new(), Vec::new()];
        let mut line = String::new();
        for _ in 0..runs {
            let time;
            (time, line) = run(program, &one.record);
            if !line.starts_with(&wanted) {
                println!("{}: {line:?} where {wanted:?} was due", one.name());
                exit(1);
            }
            spent[0].push(time);
            spent[1].push(run(Path::new("true"), &one.record).0);
        }
        let [(x, p), (y, q)] = spent.map(|mut times| {
            times.sort();
            (times[0].as_secs_f64() * 1e6, times[runs / 2].as_secs_f64() * 1e6)
        });
        let cell = |best: f64, median: f64| format!("{best:.0} ({median:.0})");
        println!("{:<28}{:>16}{:>16}{:>16}   {}", one.name(), cell(x, p), cell(y, q), cell(x - y, p - q), line.trim_end());
    }
}

/// One run from start to exit, with the record on standard input.
fn run(program: &Path, record: &[u8]) -> (Duration, String) {
    let start = Instant::now();
    let child = Command::new(program).stdin(Stdio::piped()).stdout(Stdio::piped()).spawn();
    let mut child = child.unwrap_or_else(|why| {
        eprintln!("{} cannot be run: {why}", program.display());
        exit(2)
    });
    // `true` may be gone before the write.
    let _ = child.stdin.take().unwrap().write_all(record);
    let output = child.wait_with_output().unwrap();
    (start.elapsed(), String::from_utf8_lossy(&output.stdout).into_owned())
}

/// What several observers cost beside each of them alone: one call with all of them by a call for each.
fn by_observer(calls: &[(&str, Vec<Line>)]) {
    println!();
    println!("Several observers, the time of one call by the times of a call for each observer alone: least, geometric mean, largest");
    println!("{:<24}{}", "", VERSIONS.each_ref().map(|version| format!("{:<30}", version.name)).concat());
    for (call, lines) in calls {
        let ratios = [0, 1, 2].map(|version| lines.iter().filter_map(|line| line.ratio_to_alone(version)).collect::<Vec<f64>>());
        if !ratios[0].is_empty() {
            println!("{call:<24}{}", ratios.map(|ratios| format!("{:<30}", spread(&ratios))).concat());
        }
    }
}

/// The least, the geometric mean and the largest.
fn spread(ratios: &[f64]) -> String {
    let (least, most) = ratios.iter().fold((f64::MAX, 0.0_f64), |(least, most), &ratio| (least.min(ratio), most.max(ratio)));
    format!("{least:>9.2}{:>9.2}{most:>9.2}", geometric_mean(ratios))
}

fn by_family(calls: &[(&str, Vec<Line>)]) {
    println!();
    println!("Ratios by family: least, geometric mean, largest");
    println!("{:<24}{:<30}{:<30}", "", VERSIONS[1].name, VERSIONS[2].name);
    let all: Vec<&Line> = calls.iter().flat_map(|(_, lines)| lines).collect();
    for group in all.chunk_by(|x, y| x.family == y.family) {
        let columns = [1, 2].map(|version| {
            let ratios: Vec<f64> = group.iter().map(|line| line.ratio(version)).collect();
            format!("{:<30}", spread(&ratios))
        });
        println!("{:<24}{}", group[0].family, columns.concat());
    }
}

fn sum_up(calls: &[(&str, Vec<Line>)]) {
    println!();
    println!("Summary");
    for version in [1, 2] {
        let name = VERSIONS[version].name;
        for (call, lines) in calls {
            let Some(worst) = largest(lines.iter(), |line| line.ratio(version)) else {
                continue;
            };
            let lines: Vec<&Line> = lines.iter().collect();
            let (mean, above) = (mean(&lines, version), lines.iter().filter(|line| line.ratio(version) > 1.5).count());
            println!(
                "  {call} against {name}: geometric mean {mean:.2}, largest ratio {worst}; above 1.5 at {above} of {} inputs",
                lines.len()
            );
        }
        let full: Vec<&Line> = calls[0].1.iter().filter(|line| line.family.starts_with("full")).collect();
        if let Some(n) = full.iter().map(|line| line.n).max() {
            let large: Vec<&Line> = full.iter().copied().filter(|line| line.n == n).collect();
            let (mean, at_most) = (mean(&full, version), mean(&large, version));
            println!("  check against {name}, full records: geometric mean of the ratios {mean:.2}, at n = {n} {at_most:.2}");
        }
    }
    for (call, lines) in calls {
        let (tiny, others): (Vec<&Line>, Vec<&Line>) = lines.iter().partition(|line| line.n < SMALL);
        for (size, lines) in [(format!("{SMALL} states or more"), others), ("tiny".into(), tiny)] {
            if let Some(worst) = largest(lines.into_iter(), Line::ratio_to_faster) {
                println!("  {call} against the faster of the two, {size}: largest ratio {worst}");
            }
        }
    }
    for (call, lines) in calls {
        let ratio = |line: &Line| line.ratio_to_alone(0).unwrap_or(0.0);
        let lists: Vec<&Line> = lines.iter().filter(|line| line.alone.is_some()).collect();
        if let Some(worst) = largest(lists.iter().copied(), ratio) {
            let above = lists.iter().filter(|line| ratio(line) > 1.0).count();
            println!("  {call}, several observers against each alone: largest ratio {worst}; above 1 at {above} of {} inputs", lists.len());
        }
    }
}

/// The largest ratio and where it is.
fn largest<'a>(lines: impl Iterator<Item = &'a Line>, ratio: impl Fn(&Line) -> f64) -> Option<String> {
    let worst = lines.max_by(|x, y| ratio(x).total_cmp(&ratio(y)))?;
    Some(format!("{:.2} at {}", ratio(worst), worst.name))
}

/// The geometric mean of the ratios.
fn mean(lines: &[&Line], version: usize) -> f64 {
    let ratios: Vec<f64> = lines.iter().map(|line| line.ratio(version)).collect();
    geometric_mean(&ratios)
}

fn geometric_mean(ratios: &[f64]) -> f64 {
    (ratios.iter().map(|ratio| ratio.ln()).sum::<f64>() / ratios.len() as f64).exp()
}
