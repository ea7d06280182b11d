//! `second list PATH…`, `second judge PATH…`, `second explain LAYOUT PATH…`, `second generate SEED COUNT DIR`, `second generate-1.0 SEED COUNT DIR`,
//! `second cases DIR`, `second table SEED EACH`, `second vectors CRATE`.

use second::antt;
use second::appendix;
use second::cases;
use second::explain::sentence_text;
use second::generate::nth_file_as;
use second::layout::Layout;
use second::listing::{escaped, program_text};
use second::probes;
use second::sweep;
use second::vectors;
use std::fs;
use std::io::{self, Write};
use std::path::Path;
use std::process::ExitCode;

const USAGE: &str = "usage: second list PATH…
       second judge PATH…
       second explain LAYOUT PATH…
       second generate SEED COUNT DIR
       second generate-1.0 SEED COUNT DIR
       second cases DIR
       second table SEED EACH
       second vectors CRATE";

fn main() -> ExitCode {
    let arguments: Vec<String> = std::env::args().skip(1).collect();
    let arguments: Vec<&str> = arguments.iter().map(String::as_str).collect();
    match run(&arguments) {
        Ok(()) => ExitCode::SUCCESS,
        Err(error) => {
            eprintln!("second: {error}");
            ExitCode::FAILURE
        }
    }
}

fn run(arguments: &[&str]) -> io::Result<()> {
    match arguments {
        ["list", paths @ ..] if !paths.is_empty() => for_each(paths, |path, file| {
            let mut text = named(path, paths.len() > 1);
            text.extend(program_text(file));
            text
        }),
        ["judge", paths @ ..] if !paths.is_empty() => {
            for_each(paths, |_, file| format!("{}\n", judgement(Layout::Current, file)).into_bytes())
        }
        ["explain", layout, paths @ ..] if !paths.is_empty() => {
            let layout = number(layout)?;
            for_each(paths, |path, file| {
                let mut text = named(path, paths.len() > 1);
                text.extend(sentence_text(layout, file, u64::MAX));
                text
            })
        }
        ["generate", seed, count, directory] => generate(Layout::Current, seed, count, directory),
        ["generate-1.0", seed, count, directory] => generate(Layout::First, seed, count, directory),
        ["cases", directory] => {
            let cases = cases::all().into_iter().chain(appendix::files());
            let files = cases.map(|case| case.file).chain(probes::files()).chain(sweep::many_names());
            write_files(Layout::Current, Path::new(directory), files)
        }
        ["table", seed, each] => {
            let each = usize::try_from(number(each)?).map_err(io::Error::other)?;
            io::stdout().write_all(antt::module(number(seed)?, each).as_bytes())
        }
        ["vectors", crate_folder] => {
            let folder = Path::new(crate_folder);
            fs::write(folder.join("data/vectors"), vectors::file())?;
            fs::write(folder.join("stdout"), vectors::printed())
        }
        _ => Err(io::Error::other(USAGE)),
    }
}

fn number(text: &str) -> io::Result<u64> {
    text.parse()
        .map_err(|error| io::Error::other(format!("{text}: {error}")))
}

/// The path's own line, where there are several: with the listing's escapes, so that no path passes for a line of a listing.
fn named(path: &str, several: bool) -> Vec<u8> {
    if several {
        let mut line = escaped(path.as_bytes());
        line.extend(b":\n");
        line
    } else {
        Vec::new()
    }
}

fn for_each(paths: &[&str], answer: impl Fn(&str, &[u8]) -> Vec<u8>) -> io::Result<()> {
    let mut out = io::stdout().lock();
    for path in paths {
        let file = fs::read(path).map_err(|error| io::Error::other(format!("{path}: {error}")))?;
        out.write_all(&answer(path, &file))?;
    }
    Ok(())
}

fn generate(layout: Layout, seed: &str, count: &str, directory: &str) -> io::Result<()> {
    let seed = number(seed)?;
    let files = (0..number(count)?).map(|index| nth_file_as(layout, seed, index));
    write_files(layout, Path::new(directory), files)
}

fn judgement(layout: Layout, file: &[u8]) -> String {
    let (number, object, component) = layout.verdict(file);
    format!("{number} {object} {component}")
}

/// Writes the files, and what this program answers for each.
fn write_files(layout: Layout, directory: &Path, files: impl Iterator<Item = Vec<u8>>) -> io::Result<()> {
    fs::create_dir_all(directory)?;
    let mut answers = String::new();
    for (index, file) in files.enumerate() {
        let name = format!("{index:06}.zt");
        answers += &format!("{name} {}\n", judgement(layout, &file));
        fs::write(directory.join(name), file)?;
    }
    fs::write(directory.join("answers.txt"), answers)
}
