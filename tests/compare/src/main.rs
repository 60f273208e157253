//! compare [SHEETS [SEED]]
//! compare --edges DIR
//! compare --texts DIR
//! compare --lines DIR
//! compare --saved DIR
//! compare --shown DIR
//! compare --planned-sheets DIR
//! compare --planned-images DIR
//! compare --sets
//! compare --pairs
//! compare --images [SHEETS [SEED]]
//! compare --plans [SHEETS [SEED]]
//!
//! Holds the proved programs to the second one: each sheet goes through the C
//! entries `run_sheet` and `explain_sheet` in several slices, and the edge sheets
//! and every fourth random one through the programs that RUNSHEET and EXPLAINSHEET
//! name, over standard input. As many random seeds go through the C entry
//! `seed_sheet` and the program that SEEDSHEET names in the same way, and their
//! sheets are then sheets like the others. That program is also given inputs that
//! it must refuse. The edge sheets and every fourth random one are also saved, and
//! their images shown and taken up again, renumbered and damaged ones too, by the C
//! entries `save_sheet` and `show_image` and the programs that SAVESHEET, SHOWIMAGE and
//! RESUMESHEET name. All sheets, parts of runs, and images, those of directed rows that no
//! run gives among them, go through the C entries `plan_sheet` and `plan_image`, and some
//! through the programs that PLANSHEET and PLANIMAGE name; the list of a run is played.
//! With --edges it compares nothing: it writes edge sheet N to DIR/N.sheet, and
//! what the second program prints of it to DIR/N.printed; with --texts its text in
//! words, with --saved its image. With --lines it writes the inputs of the program
//! that makes sheets so, N to DIR/N.line, with --shown images at their limits, N to
//! DIR/N.image; with --planned-sheets and --planned-images the inputs of the programs that
//! give lists. With --sets it asks the C entry `look_up_majority` and the second
//! program of every set of boards alone, with --pairs the C entry `describe_record`
//! of records of every kind with every answer, with --images it compares images alone, with
//! --plans lists of records alone.
//!
//! Exit status: 0 all agree; 1 a sheet, a line, an image, a set or a pair differs; 2
//! bad usage, or a program does not run; 3 all agree, but something that a run can
//! meet was not met, or too rarely (as may be with fewer than 1,000 sheets).

mod both;
mod course;
mod coverage;
mod damage;
mod images;
mod plans;
mod seeds;
mod sets;
mod sheets;
mod words;

use both::Fault;
use coverage::Coverage;
use generate::{Kind, Rng};
use images::{Images, Programs};
use plans::Plans;
use std::path::{Path, PathBuf};
use std::process::ExitCode;
use std::{env, fs, io};
use words::Told;

const SHEETS: u64 = 3000;
const SEED: u64 = 1;
/// With fewer random sheets something may not be met.
const SHEETS_ENOUGH: u64 = 1000;
/// A process takes longer to start than a sheet to run.
const PROGRAM_EVERY: u64 = 4;
/// Few random sheets are broken, and these soon end.
const BROKEN_EVERY: u64 = 4;

fn main() -> ExitCode {
    let args: Vec<String> = env::args().skip(1).collect();
    let words: Vec<&str> = args.iter().map(String::as_str).collect();
    let done = match words[..] {
        ["--edges", dir] => write(dir, "sheet", &generate::edges(), sheets::printed),
        ["--texts", dir] => write(dir, "sheet", &generate::edges(), words::printed),
        ["--lines", dir] => write(dir, "line", &seeds::lines(), peer::seed::print),
        ["--saved", dir] => write(dir, "sheet", &generate::edges(), images::saved),
        ["--shown", dir] => write(dir, "image", &damage::edges(), images::shown),
        ["--planned-sheets", dir] => write(dir, "sheet", &plans::sheet_edges(), plans::planned),
        ["--planned-images", dir] => {
            write(dir, "image", &plans::image_edges(), plans::planned_image)
        }
        ["--images", ref words @ ..] => compare_images(words),
        ["--plans", ref words @ ..] => compare_plans(words),
        ["--sets"] => told(sets::compare()),
        ["--pairs"] => told(words::compare()),
        _ => compare_with(&words),
    };
    match done {
        Ok(status) => status.into(),
        Err(error) => {
            eprintln!("compare: {error}");
            ExitCode::from(2)
        }
    }
}

/// Writes inputs of a program, each with what the second program prints.
fn write(
    dir: &str,
    end: &str,
    inputs: &[Vec<u8>],
    printed: fn(&[u8]) -> Vec<u8>,
) -> io::Result<u8> {
    let dir = Path::new(dir);
    fs::create_dir_all(dir)?;
    for (n, input) in inputs.iter().enumerate() {
        fs::write(dir.join(format!("{n}.{end}")), input)?;
        fs::write(dir.join(format!("{n}.printed")), printed(input))?;
    }
    Ok(0)
}

/// The number of sheets and the seed that the words say, or these; none if they say
/// something else.
fn numbers(words: &[&str], sheets: u64) -> Option<(u64, u64)> {
    let number = |n: usize, default| words.get(n).map_or(Ok(default), |word| word.parse());
    match (number(0, sheets), number(1, SEED), words.len()) {
        (Ok(sheets), Ok(seed), 0..=2) => Some((sheets, seed)),
        _ => None,
    }
}

fn usage() -> io::Result<u8> {
    let ways = "--edges DIR | --texts DIR | --lines DIR | --saved DIR | --shown DIR";
    let plans = "--planned-sheets DIR | --planned-images DIR";
    let alone = "--sets | --pairs | --images [SHEETS [SEED]] | --plans [SHEETS [SEED]]";
    eprintln!("usage: compare [SHEETS [SEED]] | {ways} | {plans} | {alone}");
    Ok(2)
}

/// The program that a variable names.
fn named(name: &str) -> io::Result<PathBuf> {
    match env::var_os(name) {
        Some(path) => Ok(path.into()),
        None => Err(io::Error::other(format!(
            "{name} does not name the program"
        ))),
    }
}

fn programs_of_images() -> io::Result<Programs> {
    Ok(Programs {
        savesheet: named("SAVESHEET")?,
        showimage: named("SHOWIMAGE")?,
        resumesheet: named("RESUMESHEET")?,
    })
}

/// Compares the images of as many sheets as the words say.
fn compare_images(words: &[&str]) -> io::Result<u8> {
    let Some((sheets, seed)) = numbers(words, SHEETS / PROGRAM_EVERY) else {
        return usage();
    };
    told(images::compare(programs_of_images()?, sheets, seed))
}

fn programs_of_plans() -> io::Result<plans::Programs> {
    Ok(plans::Programs {
        plansheet: named("PLANSHEET")?,
        planimage: named("PLANIMAGE")?,
    })
}

/// Compares the lists of as many sheets as the words say.
fn compare_plans(words: &[&str]) -> io::Result<u8> {
    let Some((sheets, seed)) = numbers(words, SHEETS) else {
        return usage();
    };
    told(plans::compare(programs_of_plans()?, sheets, seed))
}

/// Compares as many sheets as the words say, and tells what differs. Returns the exit
/// status.
fn compare_with(words: &[&str]) -> io::Result<u8> {
    let Some((sheets, seed)) = numbers(words, SHEETS) else {
        return usage();
    };
    let mut comparison = Comparison {
        runsheet: named("RUNSHEET")?,
        seedsheet: named("SEEDSHEET")?,
        explainsheet: named("EXPLAINSHEET")?,
        rng: Rng::new(seed),
        coverage: Coverage::default(),
        told: Told::default(),
        images: Images::new(programs_of_images()?, seed),
        plans: Plans::new(programs_of_plans()?, seed),
        sheets: 0,
        printed: 0,
    };
    let edges = generate::edges();
    println!(
        "{sheets} random sheets and {sheets} seeds from seed {seed}, {} edge sheets, {} lines",
        edges.len(),
        seeds::lines().len()
    );
    let compared = comparison.run(&edges, sheets);
    told(compared.map(|()| comparison.tell(sheets)))
}

/// The exit status, once what differs is told.
fn told(compared: Result<u8, Fault>) -> io::Result<u8> {
    match compared {
        Ok(status) => Ok(status),
        Err(Fault::Differs(said)) => {
            println!("{said}");
            Ok(1)
        }
        Err(Fault::Fails(error)) => Err(error),
    }
}

/// Keeps a sheet, of this number, that differs.
fn keep(compared: Result<(), Fault>, n: usize, kind: Kind, sheet: &[u8]) -> Result<(), Fault> {
    let what = || format!("sheet {n} ({kind:?}) differs");
    compared.or_else(|fault| both::keep("sheet", sheet, fault.of(what())))
}

struct Comparison {
    runsheet: PathBuf,
    seedsheet: PathBuf,
    explainsheet: PathBuf,
    /// What the slices hold.
    rng: Rng,
    coverage: Coverage,
    told: Told,
    images: Images,
    plans: Plans,
    /// How many sheets were compared, and how many of them were printed too.
    sheets: usize,
    printed: usize,
}

impl Comparison {
    /// Compares all, up to what differs.
    fn run(&mut self, edges: &[Vec<u8>], sheets: u64) -> Result<(), Fault> {
        let mut of_sheets = Rng::new(self.rng.draw());
        let mut of_seeds = Rng::new(self.rng.draw());
        let mut of_broken = Rng::new(self.rng.draw());
        for (seed, count) in seeds::edges() {
            self.take(generate::seeded(seed, count), true)?;
        }
        seeds::call_wrongly(&mut self.rng)?;
        seeds::print_edges(&self.seedsheet)?;
        let first = self.sheets;
        for sheet in edges {
            self.take((Kind::Edge, sheet.clone()), false)?;
        }
        let image = |fault: Fault| fault.of("an image differs");
        self.images.show_edges().map_err(image)?;
        let plan = |fault: Fault| fault.of("a list differs");
        self.plans.edges().map_err(plan)?;
        for n in 0..sheets {
            let print = n % PROGRAM_EVERY == 0;
            self.take(generate::random(Rng::new(of_sheets.draw())), print)?;
            self.take(generate::random_seeded(Rng::new(of_seeds.draw())), print)?;
            if n % BROKEN_EVERY == 0 {
                self.take(generate::random_broken(Rng::new(of_broken.draw())), false)?;
            }
        }
        // Last, so that what is wrong is mostly found before so many processes are started.
        for (n, sheet) in edges.iter().enumerate() {
            keep(self.print(sheet), first + n, Kind::Edge, sheet)?;
        }
        self.images.print_edges().map_err(image)?;
        self.plans.print_edges().map_err(plan)
    }

    /// Compares one sheet; one that differs is kept.
    fn take(&mut self, (kind, sheet): (Kind, Vec<u8>), print: bool) -> Result<(), Fault> {
        let compared = self.agree(kind, &sheet, print);
        keep(compared, self.sheets, kind, &sheet)?;
        self.sheets += 1;
        if matches!(kind, Kind::Broken) {
            self.coverage.measure(&sheet);
        }
        self.coverage.play(&sheet);
        Ok(())
    }

    /// The C entries do the same as the second program; so do the programs if they print.
    /// Of a seeded sheet they first make the sheet.
    fn agree(&mut self, kind: Kind, sheet: &[u8], print: bool) -> Result<(), Fault> {
        if let Kind::Seeded { seed, count } = kind {
            seeds::call(seed, count, &mut self.rng)?;
            seeds::well_formed(sheet)?;
            if print {
                let line = seeds::line(seed, count);
                seeds::print(&self.seedsheet, &line)?;
                seeds::print(&self.seedsheet, &seeds::edited(line, &mut self.rng))?;
            }
        }
        sheets::call(sheet, &mut self.rng)?;
        self.told
            .explain(sheet, &mut self.coverage, &mut self.rng)?;
        if print {
            self.print(sheet)?;
        }
        self.plans.take(kind, sheet, print)?;
        match kind {
            // They are short, and most of their steps are refused.
            Kind::Seeded { .. } => Ok(()),
            // An opening by itself, mostly a wrong one.
            Kind::Edge if sheet.len() == 8 => self.images.save(sheet),
            Kind::Edge => self.images.take(sheet),
            _ if print => self.images.take(sheet),
            _ => Ok(()),
        }
    }

    /// The programs print of a sheet what the second program does.
    fn print(&mut self, sheet: &[u8]) -> Result<(), Fault> {
        sheets::print(&self.runsheet, sheet)?;
        words::print(&self.explainsheet, sheet)?;
        self.images.print_saved(sheet)?;
        self.printed += 1;
        Ok(())
    }

    /// Tells what was met. Returns the exit status.
    fn tell(&self, sheets: u64) -> u8 {
        let (all, printed) = (self.sheets, self.printed);
        println!("all agree; {printed} of {all} sheets were also printed by the programs");
        println!("{}", self.told.said());
        println!("{}", self.coverage);
        println!("{}", self.images);
        println!("{}", self.plans);
        let mut faults = self.coverage.faults();
        faults.extend(self.images.faults());
        faults.extend(self.plans.faults());
        for fault in &faults {
            println!("{fault}");
        }
        if faults.is_empty() {
            return 0;
        }
        if sheets < SHEETS_ENOUGH {
            println!(
                "too few sheets: {sheets} random ones, and with {SHEETS_ENOUGH} all should be met"
            );
        }
        3
    }
}
