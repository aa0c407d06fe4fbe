//! files SEED FILES SHOWN PROGRAM: compares the library's read and write with the independent implementation on so many files, and the
//! program `show` on SHOWN of them. It ends at the first difference with the case and status 1; so it does where a refusal never
//! came up. files SEED FILES: the same without guards and without `show`, and the counts are not judged; that is for valgrind.

use files::aids::{only_unused_wrong, plain_aids, Built};
use files::cases::{self, Case};
use files::damage::DAMAGES;
use files::faults::{source_of, FAULTS};
use files::fixed;
use files::lent::without_guards;
use files::offsets::{self, Made};
use files::random::Random;
use files::reading::{self, own};
use files::shown::Program;
use files::tally::Tally;
use files::writing::{self, Source};
use std::path::PathBuf;
use std::process::ExitCode;

/// The fewest files that are a test, and the fewest that are shown.
const LEAST_FILES: u64 = 3000;
const LEAST_SHOWN: u64 = 2000;

/// The file of a case: sound, or damaged once or twice. Answers what was done to it.
fn damaged(case: &Case, random: &mut Random) -> (Vec<u8>, Vec<&'static str>) {
    let (mut file, mut done) = (case.text(), Vec::new());
    for _ in 0..random.pick(&[0, 0, 1, 1, 1, 2]) {
        let damage = &DAMAGES[random.below(DAMAGES.len())];
        (damage.apply)(&mut file, case, random);
        done.push(damage.name);
    }
    (file, done)
}

/// Reads the file, and writes again what was read. Answers the refusal and its line.
fn read_once(
    file: &[u8],
    aids: &reading::Aids,
    done: &[&'static str],
    tally: &mut Tally,
) -> Result<(u32, u32), String> {
    let back = reading::compare(file, aids)?;
    tally.read(file, back.answer.n, back.answer.refusal, back.answer.line, done);
    if back.answer.refusal == 0 {
        writing::write_again(file, aids, &back)?;
    }
    Ok((back.answer.refusal, back.answer.line))
}

/// Writes a source, and reads back what was written. Answers the refusal.
fn write_once(
    source: &Source,
    random: &mut Random,
    built: &Built,
    done: &[&'static str],
    tally: &mut Tally,
) -> Result<u32, String> {
    let (refusal, written) = writing::compare(source)?;
    tally.wrote(refusal, done);
    if refusal == 0 {
        let mut aids = plain_aids(built);
        aids.lists[own(source.sheet.n)] = source.list.clone();
        if source.fields.rows.iter().any(|row| row[0] == 1) {
            aids.texture = random.bytes(source.sheet.area() as usize);
        }
        writing::read_back(&written, source, &aids)?;
    }
    Ok(refusal)
}

/// Writes a case, sound or with one fault or two.
fn write_case(case: &Case, random: &mut Random, built: &Built, tally: &mut Tally) -> Result<(), String> {
    let (mut source, mut done) = (source_of(case, random), Vec::new());
    for _ in 0..random.pick(&[0, 0, 1, 1, 1, 2]) {
        let fault = &FAULTS[random.below(FAULTS.len())];
        (fault.apply)(&mut source, random);
        done.push(fault.name);
    }
    write_once(&source, random, built, &done, tally).map(|_| ())
}

/// Shows the file, where there is a program and fewer than its files are shown; every eighth comes through a pipe.
fn show_once(file: &[u8], show: &Option<(Program, u64)>, tally: &mut Tally) -> Result<(), String> {
    match show {
        Some((program, files)) if tally.shown < *files => {
            let piped = tally.shown % 8 == 0;
            tally.pictures += program.compare(file, piped)? as u64;
            tally.shown += 1;
            Ok(())
        }
        _ => Ok(()),
    }
}

/// Reads, shows and writes a file with offsets about the table count, which has to earn its own refusals.
fn made_once(
    made: &Made,
    file: &[u8],
    random: &mut Random,
    built: &Built,
    show: &Option<(Program, u64)>,
    tally: &mut Tally,
) -> Result<(), String> {
    let read = read_once(file, &made.case.aids, &[], tally)?;
    show_once(file, show, tally)?;
    let written = write_once(&source_of(&made.case, random), random, built, &[], tally)?;
    if (read, written) == (made.read, made.written) {
        return Ok(());
    }
    let expected = (made.read, made.written);
    Err(format!("refusal and line in reading, refusal in writing: {:?}, not {expected:?}", (read, written)))
}

/// All files; a difference is told with the file.
fn run(seed: u64, files: u64, show: &Option<(Program, u64)>, tally: &mut Tally) -> Result<(), String> {
    let (mut random, built) = (Random::new(seed), Built::new());
    let told = |number: u64, file: &[u8], what: String| {
        let text = String::from_utf8_lossy(&file[..file.len().min(2000)]).into_owned();
        format!("seed {seed}, case {number}: {what}\n  file of {} bytes: {text:?}", file.len())
    };
    let fixed = fixed::fixed(&mut random, &built);
    for (number, file) in fixed.iter().enumerate() {
        let aids = plain_aids(&built);
        let done = read_once(file, &aids, &[], tally).and_then(|_| show_once(file, show, tally));
        done.map_err(|what| told(number as u64, file, what))?;
    }
    for (number, made) in offsets::all(&built).iter().enumerate() {
        let file = made.case.text();
        made_once(made, &file, &mut random, &built, show, tally)
            .map_err(|what| told(number as u64, &file, what))?;
    }
    for number in fixed.len() as u64..files {
        let plain = number % 2 == 0;
        let case = cases::any(&mut random, &built, plain);
        let (file, done) = damaged(&case, &mut random);
        let mut once = read_once(&file, &case.aids, &done, tally).map(|_| ());
        tally.unused += only_unused_wrong(&case.aids, case.sheet.n) as u64;
        if plain {
            once = once.and_then(|()| show_once(&file, show, tally));
        }
        once.and_then(|()| write_case(&case, &mut random, &built, tally))
            .map_err(|what| told(number, &file, what))?;
    }
    Ok(())
}

/// The program and how many files it is given, from the words of the command; its input stands beside this program.
fn program(words: &[String]) -> Option<(Program, u64)> {
    let input = std::env::current_exe().ok()?.with_file_name(format!("shown-{}", std::process::id()));
    let path = PathBuf::from(".").join(words.get(3)?);
    Some((Program { path, input }, words.get(2)?.parse().ok()?))
}

/// The run that the words of the command ask for, with its counts; the answer is whether all is well.
fn judged(seed: u64, files: u64, show: &Option<(Program, u64)>) -> bool {
    let mut tally = Tally::default();
    println!("seed {seed}");
    let done = run(seed, files, show, &mut tally);
    match (done, show) {
        (Err(what), _) => {
            println!("{what}");
            false
        }
        (Ok(()), None) => {
            println!("{} files and as many writes compared", tally.files);
            true
        }
        (Ok(()), Some(_)) => {
            tally.print();
            let missing = tally.missing(DAMAGES.len(), FAULTS.len(), LEAST_FILES, LEAST_SHOWN);
            missing.iter().for_each(|what| println!("files: {what}"));
            missing.is_empty()
        }
    }
}

fn main() -> ExitCode {
    let words: Vec<String> = std::env::args().skip(1).collect();
    let show = program(&words);
    let number = |at: usize| words.get(at).and_then(|word| word.parse().ok());
    let (Some(seed), Some(files)) = (number(0), number(1)) else {
        return usage();
    };
    match (words.len(), &show) {
        (2, None) => without_guards(),
        (4, Some(_)) => {}
        _ => return usage(),
    }
    let well = judged(seed, files, &show);
    if let Some((program, _)) = &show {
        let _ = std::fs::remove_file(&program.input);
    }
    ExitCode::from(!well as u8)
}

fn usage() -> ExitCode {
    eprintln!("usage: files SEED FILES [SHOWN PROGRAM]");
    ExitCode::from(2)
}
