//! The judge's commands.

use std::fs::{self, File};
use std::io::{self, BufRead, BufWriter, Read, Write};
use std::path::Path;
use std::process::ExitCode;

use judge::bench;
use judge::cases;
use judge::console::{self, Desk};
use judge::desks;
use judge::dice::Dice;
use judge::listed;
use judge::qdimacs::Asked;
use judge::sheets::Sheet;
use judge::tally::Tally;
use judge::text_cases::text_cases;
use judge::written_cases::written_cases;

const USAGE: &str = "\
judge bench                        writes the benchmark's formulas, one to a line: name, budget, count of words, words
judge cases                        writes the check's cases as console lines
judge console                      answers console lines from standard input
judge desks SEED LINES             writes generated console lines
judge largest-text SEED            writes a text with all counts at their limits
judge qdimacs SEED COUNT FOLDER    writes generated formulas: N.qdimacs for each, and console lines that read, write and run them all
judge tally                        counts what console lines from standard input try
judge talks                        writes the cases that ask for more than a check as console lines
judge text-cases                   writes the cases of the reader of texts as console lines
judge winners                      reads a text from standard input and writes its winners by brute force, as literals, and their number
judge written-cases                writes the cases of the writer of texts as console lines
";

fn main() -> ExitCode {
    let words: Vec<String> = std::env::args().skip(1).collect();
    let words: Vec<&str> = words.iter().map(String::as_str).collect();
    let done = match words[..] {
        ["bench"] => write_trials(&mut io::stdout().lock()),
        ["cases"] => write_cases(&mut io::stdout().lock()),
        ["console"] => serve(&mut io::stdin().lock(), &mut io::stdout().lock()),
        ["tally"] => count(&mut io::stdin().lock(), &mut io::stdout().lock()),
        ["talks"] => write_talks(&mut io::stdout().lock()),
        ["text-cases"] => write_text_cases(&mut io::stdout().lock()),
        ["winners"] => write_winners(&mut io::stdin().lock(), &mut io::stdout().lock()),
        ["written-cases"] => write_written_cases(&mut io::stdout().lock()),
        ["desks", seed, lines] => match (seed.parse(), lines.parse()) {
            (Ok(seed), Ok(lines)) => write_desks(seed, lines),
            _ => return usage(),
        },
        ["largest-text", seed] => match seed.parse() {
            Ok(seed) => write_largest(seed, &mut io::stdout().lock()),
            Err(_) => return usage(),
        },
        ["qdimacs", seed, count, folder] => match (seed.parse(), count.parse()) {
            (Ok(seed), Ok(count)) => write_qdimacs(seed, count, Path::new(folder)),
            _ => return usage(),
        },
        _ => return usage(),
    };
    ended(done)
}

fn usage() -> ExitCode {
    eprint!("{USAGE}");
    ExitCode::from(2)
}

fn ended(done: io::Result<()>) -> ExitCode {
    match done {
        Ok(()) => ExitCode::SUCCESS,
        // Whoever reads may stop reading.
        Err(error) if error.kind() == io::ErrorKind::BrokenPipe => ExitCode::SUCCESS,
        Err(error) => {
            eprintln!("judge: {error}");
            ExitCode::FAILURE
        }
    }
}

fn write_trials(to: &mut impl Write) -> io::Result<()> {
    for trial in bench::trials() {
        let start = format!("{} {} {}", trial.name, trial.budget, trial.block.len());
        writeln!(to, "{}", console::line(&start, &trial.block))?;
    }
    Ok(())
}

fn write_cases(to: &mut impl Write) -> io::Result<()> {
    for case in cases::check_cases() {
        writeln!(to, "# {}", case.name)?;
        writeln!(to, "{}", console::line("block", &case.block))?;
    }
    Ok(())
}

fn write_talks(to: &mut impl Write) -> io::Result<()> {
    for talk in cases::talks() {
        writeln!(to, "# {}", talk.name)?;
        for (line, _) in talk.lines {
            writeln!(to, "{line}")?;
        }
    }
    Ok(())
}

/// Each text is read whole and byte by byte (a long one with bytes at its begin
/// alone), into a buffer that isn't 0 before.
fn write_text_cases(to: &mut impl Write) -> io::Result<()> {
    for case in text_cases() {
        let block = console::line("block", &vec![7; case.room]);
        let pieces = console::line("pieces", &vec![1; case.text.len().min(100)]);
        writeln!(to, "# {}", case.name)?;
        writeln!(to, "{}", console::line("text", &case.text))?;
        writeln!(to, "{block}\nread\nwords\n{block}\n{pieces}\nwords")?;
    }
    Ok(())
}

/// Each block is written, and what is then in the text buffer read back into a
/// block buffer that isn't 0 before.
fn write_written_cases(to: &mut impl Write) -> io::Result<()> {
    for case in written_cases() {
        writeln!(to, "# {}", case.name)?;
        writeln!(to, "{}", console::line("block", &case.block))?;
        writeln!(to, "{}", console::line("text", &case.before))?;
        writeln!(to, "write\nbytes")?;
        if case.answer.starts_with("0 ") {
            let block = console::line("block", &vec![7; case.block.len()]);
            writeln!(to, "{block}\nread\nwords")?;
        }
    }
    Ok(())
}

/// One desk, until the input ends. Each answer is out before the next line is
/// waited for.
fn serve(from: &mut impl BufRead, to: &mut impl Write) -> io::Result<()> {
    let mut desk = Desk::default();
    each_line(from, |line| match desk.answer(line) {
        Some(answer) => writeln!(to, "{answer}").and_then(|()| to.flush()),
        None => Ok(()),
    })
}

fn count(from: &mut impl BufRead, to: &mut impl Write) -> io::Result<()> {
    let mut tally = Tally::default();
    each_line(from, |line| {
        tally.note(line);
        Ok(())
    })?;
    write!(to, "{tally}")
}

fn write_desks(seed: u64, lines: usize) -> io::Result<()> {
    let mut to = BufWriter::new(io::stdout().lock());
    desks::write(seed, lines, &mut to)?;
    to.flush()
}

fn write_largest(seed: u64, to: &mut impl Write) -> io::Result<()> {
    let mut dice = Dice::new(seed);
    to.write_all(&Sheet::largest(&mut dice).plain())
}

/// The texts 1.qdimacs to COUNT.qdimacs, and the lines of all of them, in order.
fn write_qdimacs(seed: u64, count: usize, folder: &Path) -> io::Result<()> {
    let mut dice = Dice::new(seed);
    let mut lines = BufWriter::new(File::create(folder.join("lines"))?);
    for number in 1..=count {
        let asked = Asked::random(&mut dice);
        fs::write(folder.join(format!("{number}.qdimacs")), asked.text())?;
        for line in asked.lines() {
            writeln!(lines, "{line}")?;
        }
    }
    lines.flush()
}

/// One winner to a line, as the literals of the outermost group and 0; the last
/// line is `all COUNT`. A text or a group that is refused is `refused NUMBER` and
/// what else is told of it.
fn write_winners(from: &mut impl Read, to: &mut impl Write) -> io::Result<()> {
    let mut text = Vec::new();
    from.read_to_end(&mut text)?;
    match listed::lines(&text) {
        Ok(lines) => {
            let count = lines.len();
            lines.iter().try_for_each(|line| writeln!(to, "{line}"))?;
            writeln!(to, "all {count}")
        }
        Err(refused) => writeln!(to, "refused {refused}"),
    }
}

/// The lines without their line feeds; the last one may have none.
fn each_line(
    from: &mut impl BufRead,
    mut with: impl FnMut(&[u8]) -> io::Result<()>,
) -> io::Result<()> {
    let mut line = Vec::new();
    while from.read_until(b'\n', &mut line)? > 0 {
        with(line.strip_suffix(b"\n").unwrap_or(&line))?;
        line.clear();
    }
    Ok(())
}
