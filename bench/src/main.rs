//! bench DIRECTORY [--only TABLE] [SEED]
//! bench calls run_sheet|peer_sheet|explain_sheet|peer_explain|save_sheet|peer_save SHEET...
//! bench calls seed_sheet|peer_seed 'SEED COUNT'...
//! bench calls show_image|peer_show IMAGE...
//!
//! The first times `run_sheet`, `explain_sheet`, `save_sheet` and the second program on the
//! same sheets, `seed_sheet` and the second program on the same seeds, and `show_image` and
//! the second program on the same images, has callgrind count their instructions, and
//! prints a table of each, or the one alone: sheets, words, seeds, images or saved. It leaves
//! the sheets and the images in the directory.
//! The others call one of the programs once for each sheet or image in a file, or for each
//! seed; this is what callgrind counts.

mod programs;
mod sheets;

use programs::Input;
use sheets::Set;
use std::error::Error;
use std::ffi::{OsStr, OsString};
use std::path::Path;
use std::process::{Command, ExitCode};
use std::time::Instant;
use std::{env, fs};

const USAGE: &str = "usage: bench DIRECTORY [--only sheets|words|seeds|images|saved] [SEED]";
const SEED: u64 = 1;
const ROUNDS: usize = 301;
/// Room for any listing, for any sheet, for any image, and for the lines of any image
/// with the scratch.
const ROOM: usize = 86_455;
/// Room for any text in words.
const TEXT_ROOM: usize = 96 * peer::RECORDS_MAX;

fn main() -> ExitCode {
    let args: Vec<String> = env::args().skip(1).collect();
    let words: Vec<&str> = args.iter().map(String::as_str).collect();
    let done = match words[..] {
        ["calls", name, ref inputs @ ..] => calls(name, inputs),
        [directory, "--only", what, ref rest @ ..] => bench(Path::new(directory), Some(what), rest),
        [directory, ref rest @ ..] => bench(Path::new(directory), None, rest),
        _ => Err(USAGE.into()),
    };
    match done {
        Ok(()) => ExitCode::SUCCESS,
        Err(error) => {
            eprintln!("bench: {error}");
            ExitCode::from(2)
        }
    }
}

/// Calls a program once for each input.
fn calls(name: &str, words: &[&str]) -> Result<(), Box<dyn Error>> {
    let mut out = vec![0; TEXT_ROOM];
    for word in words {
        let input = match name {
            "run_sheet" | "peer_sheet" => Input::Sheet(fs::read(word)?),
            "explain_sheet" | "peer_explain" => Input::Told(fs::read(word)?),
            "save_sheet" | "peer_save" => Input::Saved(fs::read(word)?),
            "show_image" | "peer_show" => Input::Image(fs::read(word)?),
            _ => {
                let line = format!("{word}\n");
                let (seed, count) = peer::seed::read(line.as_bytes()).ok_or("no such seed")?;
                Input::Seed(seed, count)
            }
        };
        let known = input.names().into_iter().position(|known| known == name);
        input.call(known.ok_or("no such program")?, &mut out);
    }
    Ok(())
}

fn bench(directory: &Path, only: Option<&str>, rest: &[&str]) -> Result<(), Box<dyn Error>> {
    let seed = match rest {
        [] => SEED,
        [seed] => seed.parse().map_err(|_| "the seed is a number")?,
        _ => return Err(USAGE.into()),
    };
    let mut tables = vec![
        ("sheets", sheets::all(seed)),
        ("words", sheets::told()),
        ("seeds", sheets::seeds()),
        ("images", sheets::images(seed)),
        ("saved", sheets::saved(seed)),
    ];
    let mut sets = tables.iter().flat_map(|(_, sets)| sets);
    // Also those of tables that are left out: their stack is measured.
    sets.try_for_each(|set| keep(directory, set).map(drop))?;
    tables.retain(|(what, _)| only.is_none_or(|only| only == *what));
    if tables.is_empty() {
        return Err(USAGE.into());
    }
    for (_, sets) in &tables {
        sets.iter().try_for_each(agree)?;
    }
    let times: Vec<_> = tables.iter().map(|(_, sets)| take(sets)).collect();
    let counted = Command::new("valgrind").arg("--version").output().is_ok();
    print!("{}", about(seed, &sheets::seeds()));
    for ((what, sets), times) in tables.iter().zip(&times) {
        println!();
        let costs = table(what, directory, sets, times, counted)?;
        match *what {
            "sheets" => more_records(&costs),
            "images" => more_entries(sets, &costs),
            _ => {}
        }
    }
    if !counted {
        println!("valgrind is not there: no instructions were counted.");
    }
    Ok(())
}

/// What a record of a long guided sheet takes beside one of a shorter sheet.
fn more_records(costs: &[Cost]) {
    let times = |n: usize| costs[2].time / costs[n].time;
    println!();
    println!(
        "A record of a guided sheet of 4,095 takes {:.2} times the time of one of 1,000, and",
        times(1)
    );
    println!("{:.2} times the time of one of 100.", times(0));
}

/// What each entry adds to the cost of an empty image: the first set has none.
fn more_entries(sets: &[Set], costs: &[Cost]) {
    let (none, some) = costs.split_first().expect("an empty image");
    println!();
    println!("Each entry adds 8 bytes to an image, and to a call on the empty one:");
    for (set, cost) in sets[1..].iter().zip(some) {
        let each = |more: f64| more / set.records as f64;
        print!("  {:<12}", set.name);
        print!(" {:>6.2} ns", each(cost.time - none.time));
        match (cost.instructions, none.instructions) {
            (Some(some), Some(none)) => println!(" {:>6.1} instructions", each(some - none)),
            _ => println!(),
        }
    }
}

/// What the tables are of.
fn about(seed: u64, seeds: &[Set]) -> String {
    let line = |set: &Set| {
        let (name, records) = (&set.name, set.records);
        format!("  seeded-{records:<6} seeds {name}, count {records}\n")
    };
    format!(
        "\
Guided sheets, and the values of images, from seed {seed}. Seeded sheets as `seed_sheet`
makes them; anyone can make the same, such as the first of 4,095 records:
echo '1 4095' | target/bin/seedsheet
{}
Images of nine lists that are as long as each other, of eight full logs without receipts
(only-logs), and of nine full lists numbered at random (renumbered). To show an image is
to read it and to write the lines of its row, the receipts among them, in both programs.
To save a sheet is to run it, with no listing, and to write the image of its row.
Times: for each input the median of {ROUNDS} calls, the two programs in turn, in a slice
as the call before left it; `cleared` is the ratio in a slice that is cleared before
each call (not timed). Both programs clear their own arrays in each call.
Instructions: callgrind's count, of one call an input.
",
        seeds.iter().map(line).collect::<String>()
    )
}

/// What a record, or a call, costs the library.
struct Cost {
    time: f64,
    instructions: Option<f64>,
}

/// Prints a table with a line for each set. Returns what a record costs the library, or a
/// call where images are read: an image may have no record.
fn table(
    what: &str,
    directory: &Path,
    sets: &[Set],
    times: &[[Times; 2]],
    counted: bool,
) -> Result<Vec<Cost>, Box<dyn Error>> {
    let [name, peer] = sets[0].inputs[0].names();
    println!("{}", head(what, &sets[0].inputs[0]));
    let mut costs = Vec::new();
    for (set, [left, cleared]) in sets.iter().zip(times) {
        let (number, records) = (set.inputs.len(), set.records);
        print!("{:<12} {number:>6} {records:>7}", set.name);
        let all = match &set.inputs[0] {
            Input::Image(image) => {
                print!(" {:>7}", image.len());
                number as f64
            }
            _ => (number * records) as f64,
        };
        let [ours, theirs] = [0, 1].map(|n| left.total(n) / all);
        print!(" {ours:>10.1} {theirs:>9.1}");
        print!(" {:>7.2} {:>7.2}", left.ratio(), cleared.ratio());
        let mut cost = Cost {
            time: ours,
            instructions: None,
        };
        let words = keep(directory, set)?;
        let count = |program| -> Result<f64, Box<dyn Error>> {
            Ok(instructions(directory, program, &words)? as f64 / all)
        };
        if counted {
            let (ours, theirs) = (count(name)?, count(peer)?);
            println!(" {ours:>10.1} {theirs:>9.1} {:>7.2}", ours / theirs);
            cost.instructions = Some(ours);
        } else {
            println!(" {:>10} {:>9} {:>7}", "-", "-", "-");
        }
        costs.push(cost);
    }
    Ok(costs)
}

/// The head of a table of inputs like this one.
fn head(what: &str, input: &Input) -> String {
    let [name, _] = input.names();
    let (bytes, unit) = match input {
        Input::Image(_) => ("   bytes", "call"),
        _ => ("", "record"),
    };
    let first = format!("{what:<12} number records{bytes} ");
    let names = format!("{name:>10}      peer   ratio");
    let time = format!("ns a {unit}");
    let above = format!("{time:<26}cleared  instructions a {unit}");
    let width = first.len() + 4;
    format!("{:width$}{above}\n{first}{names}   ratio {names}", "")
}

/// Leaves the sheets or images of a set in files. Returns the words that name its inputs.
fn keep(directory: &Path, set: &Set) -> Result<Vec<OsString>, Box<dyn Error>> {
    let mut words = Vec::new();
    for (n, input) in (1..).zip(&set.inputs) {
        let (bytes, kind) = match input {
            Input::Sheet(sheet) | Input::Told(sheet) | Input::Saved(sheet) => (sheet, "sheet"),
            Input::Image(image) => (image, "image"),
            Input::Seed(seed, count) => {
                words.push(format!("{seed} {count}").into());
                continue;
            }
        };
        let name = match set.inputs.len() {
            1 => format!("{}.{kind}", set.name),
            _ => format!("{}-{n}.{kind}", set.name),
        };
        let file = directory.join(name);
        fs::write(&file, bytes)?;
        words.push(file.into());
    }
    Ok(words)
}

/// How long a slice a program is given.
fn room(input: &Input) -> usize {
    match input {
        Input::Told(_) => TEXT_ROOM,
        _ => ROOM,
    }
}

/// The two programs must do the same job.
fn agree(set: &Set) -> Result<(), Box<dyn Error>> {
    for input in &set.inputs {
        let [ours, theirs] = [0, 1].map(|program| {
            let mut out = vec![0; room(input)];
            (input.call(program, &mut out), out)
        });
        if ours != theirs || ours.0 < 4 {
            return Err(format!("the programs do not agree on {}", set.name).into());
        }
    }
    Ok(())
}

/// Times of every set: with the slice as the call before left it, and with it cleared.
fn take(sets: &[Set]) -> Vec<[Times; 2]> {
    let none = |set| [Times::none(set), Times::none(set)];
    let mut times: Vec<_> = sets.iter().map(none).collect();
    for round in 0..ROUNDS {
        for (set, [left, cleared]) in sets.iter().zip(&mut times) {
            left.take(set, round, false);
            cleared.take(set, round, true);
        }
    }
    times
}

/// The times of the calls, in nanoseconds: for each input, those of either program.
#[derive(Clone)]
struct Times(Vec<[Vec<u128>; 2]>);

impl Times {
    fn none(set: &Set) -> Times {
        Times(vec![[const { Vec::new() }; 2]; set.inputs.len()])
    }

    /// One call of both programs on each input of a set, this one or that one first.
    fn take(&mut self, set: &Set, round: usize, clear: bool) {
        let mut out = vec![0; room(&set.inputs[0])];
        for (input, times) in set.inputs.iter().zip(&mut self.0) {
            for n in [round % 2, (round + 1) % 2] {
                if clear {
                    out.fill(0);
                }
                let start = Instant::now();
                input.call(n, &mut out);
                times[n].push(start.elapsed().as_nanos());
            }
        }
    }

    /// The time of all inputs by a program, each the median of its calls. A call is
    /// so short that the machine seldom does something else meanwhile.
    fn total(&self, n: usize) -> f64 {
        let median = |times: &[Vec<u128>; 2]| {
            let mut times = times[n].clone();
            times.sort();
            times[times.len() / 2] as f64
        };
        self.0.iter().map(median).sum()
    }

    fn ratio(&self) -> f64 {
        self.total(0) / self.total(1)
    }
}

/// The instructions of one call for each input, as callgrind counts them.
fn instructions(
    directory: &Path,
    program: &str,
    words: &[OsString],
) -> Result<u64, Box<dyn Error>> {
    let out = directory.join("callgrind.out");
    let mut option = OsStr::new("--callgrind-out-file=").to_owned();
    option.push(&out);
    let done = Command::new("valgrind")
        .args(["--quiet", "--tool=callgrind"])
        .arg(format!("--toggle-collect={program}"))
        .arg(option)
        .arg(env::current_exe()?)
        .args(["calls", program])
        .args(words)
        // Callgrind takes each byte of a `rep stosb` or `rep movsb` for an
        // instruction; so memset and memcpy are to use vectors.
        .env(
            "GLIBC_TUNABLES",
            "glibc.cpu.x86_rep_stosb_threshold=1000000:glibc.cpu.x86_rep_movsb_threshold=1000000",
        )
        .output()?;
    let text = fs::read_to_string(&out)?;
    let total = text.lines().find_map(|line| line.strip_prefix("totals: "));
    match total {
        Some(total) if done.status.success() => Ok(total.trim().parse()?),
        _ => Err(String::from_utf8_lossy(&done.stderr).into()),
    }
}
