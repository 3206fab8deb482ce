//! The layer next to arrow2, call by call, in one process. `bench/run` builds it and runs it.
//!
//!     arrow2_speed check                      whether both sides return the same
//!     arrow2_speed measure SECONDS [WORD..]   a row for each line, of those whose names have a word
//!     arrow2_speed program OURS ORIGINAL FOLDER       the row of the replay programs
//!     arrow2_speed print ROWS..               rows of several runs, merged, as text
//!     arrow2_speed write FACTS DOCS ROWS..    the same as a page and a picture
mod c_library;
mod inputs;
mod layer;
mod lines;
mod measure;
mod notes;
mod picture;
mod programs;
mod report;
mod table;

use inputs::Inputs;
use std::error::Error;
use std::fs;
use std::path::Path;
use table::Row;

type Outcome = Result<(), Box<dyn Error>>;

fn main() -> Outcome {
    let args: Vec<String> = std::env::args().skip(1).collect();
    let words: Vec<&str> = args.iter().map(String::as_str).collect();
    match words[..] {
        ["check"] => check(),
        ["measure", seconds, ref words @ ..] => measure(seconds.parse()?, words),
        ["program", ours, original, folder] => {
            program(Path::new(ours), Path::new(original), Path::new(folder))
        }
        ["print", ref rows @ ..] => print(rows),
        ["write", facts, docs, ref rows @ ..] => write(facts, Path::new(docs), rows),
        _ => Err("bench/run says how it is called".into()),
    }
}

extern "C" {
    fn mallopt(parameter: i32, value: i32) -> i32;
}

/// Makes `malloc`, which both sides call, keep freed memory: so neither gets pages from the system.
fn keep_memory() {
    const M_TRIM_THRESHOLD: i32 = -1;
    const M_MMAP_THRESHOLD: i32 = -3;
    // SAFETY: two settings of the C library, made before any thread starts.
    unsafe {
        mallopt(M_MMAP_THRESHOLD, 1 << 30);
        mallopt(M_TRIM_THRESHOLD, i32::MAX);
    }
}

fn check() -> Outcome {
    let inputs = Inputs::new();
    let mut differing = 0;
    for (group, line) in lines::all(&inputs) {
        if let Some((ours, original)) = measure::difference(&line) {
            eprintln!("{group}: {} differs: {ours}, and {original} by arrow2", line.name);
            differing += 1;
        }
    }
    match differing {
        0 => Ok(()),
        _ => Err(format!("{differing} lines differ").into()),
    }
}

fn measure(seconds: f64, words: &[&str]) -> Outcome {
    keep_memory();
    let inputs = Inputs::new();
    for (group, line) in lines::all(&inputs) {
        let name = format!("{group}: {}", line.name);
        if words.is_empty() || words.iter().any(|word| name.contains(word)) {
            let times = measure::measure(&line, seconds);
            println!("{}", Row::new(group, &line.name, line.elements, line.unit, &times));
        }
    }
    Ok(())
}

fn program(ours: &Path, original: &Path, folder: &Path) -> Outcome {
    let times = programs::measure(ours, original, folder)?;
    let name = "a script of a million lines";
    println!("{}", Row::new("arrow2_replay", name, programs::LINES, "lines", &times));
    Ok(())
}

fn rows(files: &[&str]) -> Result<Vec<Row>, Box<dyn Error>> {
    let texts: Result<Vec<String>, _> = files.iter().map(fs::read_to_string).collect();
    Ok(table::merged(&texts?)?)
}

fn print(files: &[&str]) -> Outcome {
    print!("{}", report::text(&rows(files)?));
    Ok(())
}

fn write(facts: &str, docs: &Path, files: &[&str]) -> Outcome {
    let rows = rows(files)?;
    let facts = fs::read_to_string(facts)?;
    let values = facts.lines().filter_map(|fact| fact.split_once(": "));
    let measured: Vec<&str> = values.take(3).map(|(_, value)| value).collect();
    fs::write(docs.join("SPEED.md"), report::page(&rows, &facts))?;
    fs::write(docs.join("speed.svg"), picture::picture(&rows, &measured.join(", ")))?;
    Ok(())
}
