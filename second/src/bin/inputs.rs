//! Writes inputs into a folder for runs under faults: NAME.record for records, NAME.script for replay.
//! usage: inputs FOLDER [--count N] [--seed N]

use std::env;
use std::fs;
use std::path::Path;
use std::process::exit;

use second::make;
use second::record;
use second::rng::Rng;

fn usage() -> ! {
    eprintln!("usage: inputs FOLDER [--count N] [--seed N]");
    exit(2);
}

fn write(folder: &Path, name: &str, bytes: &[u8]) {
    let path = folder.join(name);
    if let Err(error) = fs::write(&path, bytes) {
        eprintln!("inputs: cannot write {}: {}", path.display(), error);
        exit(1);
    }
}

fn damaged(rng: &mut Rng, passing: &[u8]) -> Vec<u8> {
    let mut damaged = passing.to_vec();
    let refusal = rng.pick(&record::ORDER);
    make::damage(rng, &mut damaged, refusal);
    damaged
}

/// One record of each sort.
fn records(rng: &mut Rng) -> Vec<(&'static str, Vec<u8>)> {
    let (a, b) = make::joinable_pair(rng);
    let passing = record::write(&make::any_passing(rng));
    let (list_a, list_b) = make::joinable_lists(rng);
    let list = record::write(&make::any_list(rng));
    let (limited_a, limited_b) = make::joinable_of_kinds(rng, (3, 3));
    let limited = record::write(&make::any_limited(rng));
    vec![
        ("joins-a", record::write(&a)),
        ("joins-b", record::write(&b)),
        ("full", record::write(&make::full(rng, 64, 32))),
        ("quiet", record::write(&make::passing_with_quiet_steps(rng))),
        ("changed", record::write(&make::damaged_out_of_reach(rng))),
        ("damaged", damaged(rng, &passing)),
        ("mangled", make::mangled(rng, &passing)),
        ("random", make::random_bytes(rng)),
        ("empty", Vec::new()),
        ("list-a", record::write(&list_a)),
        ("list-b", record::write(&list_b)),
        ("list-broken", record::write(&make::breaking_list(rng))),
        ("list-damaged", damaged(rng, &list)),
        ("list-full", record::write(&make::staying_list(rng, 64, 32, record::MOST_LISTED))),
        ("limited-a", record::write(&limited_a)),
        ("limited-b", record::write(&limited_b)),
        ("limited-broken", record::write(&make::breaking_limited(rng))),
        ("limited-damaged", damaged(rng, &limited)),
        ("limited-full", record::write(&make::limited_of_size(rng, 64, 32))),
    ]
}

fn main() {
    let mut arguments = env::args().skip(1);
    let folder = arguments.next().unwrap_or_else(|| usage());
    let (mut count, mut seed) = (10, 1);
    while let Some(flag) = arguments.next() {
        let number = arguments.next().and_then(|text| text.parse::<u64>().ok()).unwrap_or_else(|| usage());
        match flag.as_str() {
            "--count" => count = number,
            "--seed" => seed = number,
            _ => usage(),
        }
    }
    let folder = Path::new(&folder);
    let mut rng = Rng::new(seed);
    for i in 0..count {
        for (name, bytes) in records(&mut rng) {
            write(folder, &format!("{:04}-{}.record", i, name), &bytes);
        }
        let capacity = rng.range(0, 20_000);
        let script = make::session(&mut rng, capacity, 30);
        write(folder, &format!("{:04}.script", i), &script.bytes);
        let lists = make::session_on_lists(&mut rng, capacity, 30);
        write(folder, &format!("{:04}-list.script", i), &lists.bytes);
        let limited = make::session_on_limited(&mut rng, capacity, 30);
        write(folder, &format!("{:04}-limited.script", i), &limited.bytes);
        let mut cut = script.bytes.clone();
        cut.truncate(rng.below(cut.len() + 1));
        write(folder, &format!("{:04}-cut.script", i), &cut);
        write(folder, &format!("{:04}-random.script", i), &rng.bytes(200));
    }
}
