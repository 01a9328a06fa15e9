//! The commands of the program, by its arguments.

use std::fs::{self, File};
use std::io::{self, BufRead, BufReader, BufWriter, Read, Write};
use std::path::Path;

use crate::frames;
use crate::gen::{self, Kind};
use crate::notation::{number, whole};
use crate::page::page;
use crate::planted::Planted;
use crate::rules::Refusal;
use crate::sheet::PLAN_READ;
use crate::store::{laid_out, Area, AREA};
use crate::streams::{at_most, Streams};
use crate::waits;

const USAGE: &str = "\
usage: second [--planted K] [COMMAND]
  plan        a request sheet in, its plan as text out (also without a command)
                second plan < ring.request
  compose     a request, a plan or a log as text in, its bytes out
                second compose < ring.txt > ring.request
  explain     a request sheet or a plan sheet in, why it is accepted or refused out
                second explain < ring.request
  tune [FROM TO]
              a request sheet in, at which TTRT from FROM to TO, or of all, it has a plan out
                second tune 450 550 < ring.request
  show        a request sheet, a plan sheet or a log in, its text out
                second show < ring.request
  plan-sheet  a request sheet in, its plan sheet out
                second plan-sheet < ring.request > ring.plan
  run PLAN    calls as text in, one line of answer for each out
                second run ring.plan < calls.txt
  log PLAN    calls as text in, the log of their run out
                second log ring.plan < calls.txt > ring.log
  inspect     a log in, whether a run could have given it, or its first fault, out
                second inspect < ring.log
  inspect PLAN
              the same of a log that is to keep the plan in the file
                second inspect ring.plan < ring.log
  page LOG [PLAN]
              a page in HTML about the log in the file, which is to keep the plan, out
                second page ring.log ring.plan > page.html
  diff OLD NEW
              two plan sheets in, a line for each difference, or `same`, out
                second diff left.plan came-back.plan
  empty-store STORE
              makes the file STORE, a store without a version
                second empty-store yard.store
  keep STORE  a plan sheet in, its version's number out; STORE keeps it
                second keep yard.store < ring.plan
  kept STORE N
              the plan sheet of version N out
                second kept yard.store 1 > ring.plan
  versions STORE
              a line for each version that STORE keeps out
                second versions yard.store
  hopper      a wagon list as text in, the plan of its request sheet out
                second hopper < train.wagons
  hopper-sheet
              a wagon list as text in, its request sheet out
                second hopper-sheet < train.wagons > train.request
  refit LIST  changes of the train of a wagon list in, the plan in force after each out
                second refit train.wagons < changes.txt
  generate KIND SEED COUNT [DIR]
              framed cases out, or into a file in DIR; fddi-KIND for sets that run FDDI,
              earlier-KIND for the 2002 edition; uncut-KIND, fddi-uncut-KIND and
              earlier-uncut-KIND for such with a longest frame F, grid-KIND,
              fddi-grid-KIND and earlier-grid-KIND for such on a grid g
                second generate requests 1 20000 > cases
  answers     framed cases in, one line of answer for each out
                second answers < cases
  waits SEED COUNT
              the longest waits for asynchronous time in so many random runs
                second waits 1 10000
  help        this text
";

/// One line of answer to each line of framed cases.
fn answers(cases: impl Read, planted: Planted, out: &mut impl Write) -> io::Result<()> {
    for case in BufReader::new(cases).split(b'\n') {
        writeln!(out, "{}", frames::answer_bytes(&case?, planted))?;
    }
    Ok(())
}

/// The file beside a store, which is the lock: who has made it may replace the store.
fn lock(path: &str) -> io::Result<(String, File)> {
    if fs::symlink_metadata(path).is_ok_and(|found| found.is_symlink()) {
        return Err(io::Error::other(format!("{path} is a link")));
    }
    let beside = format!("{path}.new");
    let file = File::create_new(&beside)?;
    Ok((beside, file))
}

/// The store of a file is replaced as a whole by the bytes that are made of it; without any, or where that fails, the
/// file beside it is taken away again.
fn replace<T>(
    path: &str,
    make: impl FnOnce() -> io::Result<(T, Option<Vec<u8>>)>,
) -> io::Result<T> {
    let (beside, mut file) = lock(path)?;
    let replaced = make().and_then(|(answer, bytes)| {
        if let Some(bytes) = &bytes {
            file.write_all(bytes)?;
            file.sync_all()?;
            fs::rename(&beside, path)?;
        }
        Ok((answer, bytes.is_some()))
    });
    if !matches!(replaced, Ok((_, true))) {
        fs::remove_file(&beside)?;
    }
    Ok(replaced?.0)
}

/// Makes the empty store in a file that is not there yet.
fn empty_store(path: &str) -> io::Result<()> {
    replace(path, || match fs::symlink_metadata(path) {
        Ok(_) => Err(io::Error::from(io::ErrorKind::AlreadyExists)),
        Err(error) if error.kind() == io::ErrorKind::NotFound => Ok(((), Some(laid_out(&[])))),
        Err(error) => Err(error),
    })
}

/// Keeps a plan in the store of a file; a refused one leaves the file as it is.
fn keep(path: &str, plan: &[u8], planted: Planted) -> io::Result<Result<u32, Refusal>> {
    replace(path, || {
        let mut area = Area::new(at_most(File::open(path)?, AREA + 1)?, planted);
        let stored = area.store(plan);
        Ok((stored, stored.is_ok().then_some(area.bytes)))
    })
}

/// Writes the page of the log in a file, which may have to keep the plan in another. A file that cannot
/// be read is named.
fn page_of(
    log: &str,
    plan: Option<&&str>,
    planted: Planted,
    out: &mut impl Write,
) -> io::Result<()> {
    let read = |path: &str, most: usize| {
        let bytes = File::open(path).and_then(|file| at_most(file, most));
        bytes.map_err(|error| io::Error::other(format!("page: {path}: {error}")))
    };
    let log = read(log, usize::MAX)?;
    let plan = plan.map(|path| read(path, PLAN_READ)).transpose()?;
    out.write_all(page(plan.as_deref(), &log, planted)?.as_bytes())
}

fn generate(arguments: &[&str]) -> io::Result<bool> {
    let (name, seed, count, folder) = match *arguments {
        [name, seed, count] | [name, seed, count, "-"] => (name, seed, count, None),
        [name, seed, count, folder] => (name, seed, count, Some(folder)),
        _ => return usage(),
    };
    let parsed = (Kind::from_name(name), number(seed.as_bytes()), number(count.as_bytes()));
    let (Some(kind), Some(seed), Some(count)) = parsed else {
        return usage();
    };
    let mut out = BufWriter::new(destination(name, seed, folder)?);
    gen::write_cases(kind, seed, count, &mut out)?;
    out.flush()?;
    Ok(true)
}

fn waits(seed: &str, count: &str) -> io::Result<bool> {
    let (Some(seed), Some(count)) = (number(seed.as_bytes()), number(count.as_bytes())) else {
        return usage();
    };
    for (size, longest) in waits::longest(seed, count) {
        writeln!(io::stdout(), "{}", waits::Line(size, longest))?;
    }
    Ok(true)
}

/// Where generated cases go: standard output, or a file of the folder named by kind and seed.
fn destination(kind: &str, seed: u64, folder: Option<&str>) -> io::Result<Box<dyn Write>> {
    let Some(folder) = folder else {
        return Ok(Box::new(io::stdout().lock()));
    };
    fs::create_dir_all(folder)?;
    let name = format!("{kind}-{seed}.cases");
    Ok(Box::new(File::create(Path::new(folder).join(name))?))
}

fn usage() -> io::Result<bool> {
    io::stdout().write_all(USAGE.as_bytes())?;
    Ok(true)
}

/// Runs the command that the arguments name; tells whether standard error stayed silent.
pub fn main(arguments: &[&str]) -> io::Result<bool> {
    let ["--planted", word, rest @ ..] = arguments else {
        return command(arguments, Planted::Nothing);
    };
    match number(word.as_bytes()).and_then(Planted::from_number) {
        Some(planted) => command(rest, planted),
        None => usage(),
    }
}

fn command(arguments: &[&str], planted: Planted) -> io::Result<bool> {
    let input = io::stdin().lock();
    let out = BufWriter::new(io::stdout().lock());
    let mut streams = Streams { out, err: vec![] };
    let plan = |path: &str| at_most(File::open(path)?, PLAN_READ);
    let area = |path: &str| at_most(File::open(path)?, AREA + 1);
    match arguments {
        ["tune"] => streams.tune(None, input, planted)?,
        ["tune", from, to] if whole(from) && whole(to) => {
            streams.tune(Some([from, to]), input, planted)?;
        }
        ["run", path] => streams.run(&plan(path)?, input, planted)?,
        ["log", path] => streams.log(&plan(path)?, input, planted)?,
        ["inspect", path] => streams.inspect_of(&plan(path)?, input, planted)?,
        ["page", log, plan @ ..] if plan.len() <= 1 => {
            page_of(log, plan.first(), planted, &mut streams.out)?;
        }
        ["refit", path] => streams.refit(&fs::read(path)?, input, planted)?,
        ["diff", old, new] => streams.diff(&plan(old)?, &plan(new)?, planted)?,
        ["empty-store", path] => empty_store(path)?,
        ["keep", path] => streams.keep(keep(path, &at_most(input, PLAN_READ)?, planted)?)?,
        ["kept", path, word] if whole(word) => streams.kept(area(path)?, word, planted)?,
        ["versions", path] => streams.versions(&area(path)?)?,
        ["answers"] => answers(input, planted, &mut streams.out)?,
        ["generate", rest @ ..] => return generate(rest),
        ["waits", seed, count] => return waits(seed, count),
        [] | [_] => {
            let name = arguments.first().unwrap_or(&"plan");
            if !streams.simple(name, input, planted)? {
                drop(streams);
                return usage();
            }
        }
        _ => return usage(),
    }
    streams.out.flush()?;
    io::stderr().write_all(&streams.err)?;
    Ok(streams.err.is_empty())
}
