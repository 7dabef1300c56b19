//! Makes the files that come from tests/cases, or with --check tells where the files that stand are others. With --answer it is the
//! script program with the second meter in it.

use cases::exchange::Exchange;
use cases::night::Night;
use cases::script::{self, Program};
use std::fs;
use std::io::{self, BufRead};
use std::process::ExitCode;

/// A file as it should be.
struct Made {
    path: &'static str,
    content: Vec<u8>,
}

fn main() -> ExitCode {
    let words: Vec<String> = std::env::args().skip(1).collect();
    let done = match &words[..] {
        [] => made().and_then(|files| written(&files)),
        [word] if word == "--check" => made().and_then(|files| checked(&files)),
        [word] if word == "--answer" => return answered(),
        [path] => shown(path),
        _ => Err("usage: tests/cases/make [--check | --answer | FILE]".into()),
    };
    match done {
        Ok(told) => println!("cases: {told}"),
        Err(told) => {
            println!("cases: {told}");
            return ExitCode::FAILURE;
        }
    }
    ExitCode::SUCCESS
}

/// Every file that is made.
fn made() -> Result<Vec<Made>, String> {
    Ok(script()?.into_iter().chain(diagnose()?).chain(bench()?).chain(day()?).collect())
}

/// The files of the script program, from all files of its source in the order of their names.
fn script() -> Result<[Made; 2], String> {
    let mut exchange = Exchange::begun("tests/cases/script");
    for path in sources("tests/cases/script")? {
        each_line(&path, |line| exchange.add(line))?;
    }
    let [input, output] = exchange.files();
    Ok([Made { path: "crates/script/stdin", content: input }, Made { path: "crates/script/stdout", content: output }])
}

/// What the program `diagnose` reads, and the one line that it prints: the explanation of the last frame.
fn diagnose() -> Result<[Made; 2], String> {
    let source = "tests/cases/diagnose.txt";
    let mut exchange = Exchange::begun(source);
    each_line(source, |line| exchange.add(line))?;
    let explanation = exchange.explanation.ok_or(format!("{source} has no frame"))?;
    let output = format!("{explanation}\n").into();
    let [input, _] = exchange.files();
    Ok([
        Made { path: "crates/diagnose/stdin", content: input },
        Made { path: "crates/diagnose/stdout", content: output },
    ])
}

/// The calls that bench/run measures, and their answers.
fn bench() -> Result<[Made; 2], String> {
    let source = "tests/cases/bench.txt";
    let mut exchange = Exchange::begun(source);
    each_line(source, |line| exchange.add(line))?;
    let [input, output] = exchange.files();
    Ok([Made { path: "bench/calls", content: input }, Made { path: "bench/answers", content: output }])
}

/// The lines of a file of cases, each followed by its answer.
fn shown(path: &str) -> Result<String, String> {
    let mut exchange = Exchange::begun(path);
    each_line(path, |line| exchange.add(line))?;
    let [input, output] = exchange.files();
    let (input, output) = (String::from_utf8_lossy(&input), String::from_utf8_lossy(&output));
    let mut answers = output.lines();
    for line in input.lines().skip(1) {
        println!("{line}");
        if !cases::script::is_silent(line.as_bytes()) {
            println!("    {}", answers.next().unwrap_or_default());
        }
    }
    Ok(format!("{} answers of the second meter", output.lines().count()))
}

/// The second meter's answers to lines of the script program from standard input, up to the first that cannot be read.
fn answered() -> ExitCode {
    let mut program = Program::started();
    for (number, line) in io::stdin().lock().lines().enumerate() {
        let Some(answer) = line.ok().and_then(|line| answer(&mut program, &line)) else {
            eprintln!("cases: line {} cannot be read", number + 1);
            return ExitCode::FAILURE;
        };
        print!("{answer}");
    }
    ExitCode::SUCCESS
}

/// The line that answers this one, with its end; nothing for a comment, and `None` where the line cannot be read.
fn answer(program: &mut Program, line: &str) -> Option<String> {
    if script::is_silent(line.as_bytes()) {
        return Some(String::new());
    }
    let read = script::read(line)?;
    let outcome = program.answer(&read);
    Some(match (&read, program.explain(&read)) {
        (script::Line::Explain(_), Some(explanation)) => format!("{explanation}\n"),
        _ => script::written(outcome.number, &outcome.reply) + "\n",
    })
}

/// The play of the program `day`, and what it prints.
fn day() -> Result<[Made; 2], String> {
    let mut night = Night::begun();
    each_line("tests/cases/day.txt", |line| night.add(line))?;
    let [play, output] = night.files();
    Ok([Made { path: "crates/day/src/play.rt", content: play }, Made { path: "crates/day/stdout", content: output }])
}

/// The lines of a source in turn; an error names the one that it came of.
fn each_line(path: &str, mut add: impl FnMut(&str) -> Result<(), String>) -> Result<(), String> {
    let text = fs::read_to_string(path).map_err(|error| format!("{path}: {error}"))?;
    for (number, line) in text.lines().enumerate() {
        add(line).map_err(|error| format!("{path}:{}: {error}\n    {line}", number + 1))?;
    }
    Ok(())
}

fn sources(folder: &str) -> Result<Vec<String>, String> {
    let entries = fs::read_dir(folder).map_err(|error| format!("{folder}: {error}"))?;
    let mut paths: Vec<String> = entries.flatten().map(|entry| entry.path().display().to_string()).collect();
    paths.retain(|path| path.ends_with(".txt"));
    paths.sort();
    Ok(paths)
}

fn written(files: &[Made]) -> Result<String, String> {
    for file in files {
        fs::write(file.path, &file.content).map_err(|error| format!("{}: {error}", file.path))?;
    }
    Ok(told(files, "made"))
}

fn checked(files: &[Made]) -> Result<String, String> {
    let differences: Vec<String> = files.iter().filter_map(difference).collect();
    match differences[..] {
        [] => Ok(told(files, "as the source has it")),
        _ => Err(differences.join("\n") + "\nrun tests/cases/make"),
    }
}

fn told(files: &[Made], what: &str) -> String {
    let count = |content: &[u8]| content.split_inclusive(|&byte| byte == b'\n').count();
    let files: Vec<String> =
        files.iter().map(|file| format!("{} ({} lines)", file.path, count(&file.content))).collect();
    format!("{} {what}", files.join(", "))
}

fn lines(content: &[u8]) -> Vec<&[u8]> {
    content.split(|&byte| byte == b'\n').collect()
}

/// The first line in which the file that stands is another.
fn difference(file: &Made) -> Option<String> {
    let standing = match fs::read(file.path) {
        Err(error) => return Some(format!("{}: {error}", file.path)),
        Ok(standing) if standing == file.content => return None,
        Ok(standing) => standing,
    };
    let (standing, made) = (lines(&standing), lines(&file.content));
    let same = standing.iter().zip(&made).take_while(|(one, other)| one == other).count();
    let shown =
        |lines: &[&[u8]]| lines.get(same).map_or("the end".into(), |line| String::from_utf8_lossy(line).into_owned());
    Some(format!("{}:{}: stands {}\n    should be {}", file.path, same + 1, shown(&standing), shown(&made)))
}
