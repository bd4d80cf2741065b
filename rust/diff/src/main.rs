//! schema-diff: the format side against the plain reading and the original.

use std::process::ExitCode;
use std::{env, fs};

use diff::case::Case;
use diff::compare::{self, Difference, Expected, Stop};
use diff::program::Program;
use diff::show::describe;
use diff::{bench, record, shrink};

const USAGE: &str = "\
usage:
  schema-diff run --program PATH [--runner WORDS] [--count N] [--seed N] [--save FILE]
      puts N cases (2,000,000 by default) to the program. PATH may also stand in SKIFF_PROGRAM, and
      WORDS, which go before it, in SKIFF_RUNNER. --save writes the smallest differing case found
      (or the batch up to it, where the case alone is answered rightly).
      From 1,500,000 cases on, all schemas of four nodes are among them
  schema-diff record PROGRAM CASES ANSWERS [--seed N]
      writes the sample of small cases that the gate puts to replay or replay_write, and their answers
  schema-diff bench-cases FOLDER [--count K]
      writes files of K equal format checks (10 by default) for several sizes of schema
  schema-diff show CASES [--count N]
      prints the N-th case of a file in words, from 0, with what it should be answered";

struct Options {
    words: Vec<String>,
    program: Option<String>,
    runner: String,
    save: Option<String>,
    seed: u64,
    count: Option<u64>,
}

fn options() -> Result<Options, String> {
    let mut options = Options {
        words: Vec::new(),
        program: env::var("SKIFF_PROGRAM").ok(),
        runner: env::var("SKIFF_RUNNER").unwrap_or_default(),
        save: None,
        seed: 1,
        count: None,
    };
    let mut given = env::args().skip(1);
    while let Some(word) = given.next() {
        if !word.starts_with("--") {
            options.words.push(word);
            continue;
        }
        let value = given.next().ok_or_else(|| format!("{word} wants a value"))?;
        let number = || value.parse::<u64>().map_err(|_| format!("{word} wants a number, not {value}"));
        match word.as_str() {
            "--program" => options.program = Some(value),
            "--runner" => options.runner = value,
            "--save" => options.save = Some(value),
            "--seed" => options.seed = number()?,
            "--count" => options.count = Some(number()?),
            _ => return Err(format!("no such option: {word}")),
        }
    }
    Ok(options)
}

fn main() -> ExitCode {
    let done = options().and_then(|options| {
        let words: Vec<&str> = options.words.iter().map(String::as_str).collect();
        match words.as_slice() {
            ["run"] => run(&options),
            ["record", program, cases, answers] => write_record(&options, program, cases, answers),
            ["bench-cases", folder] => write_bench(&options, folder),
            ["show", file] => show(&options, file),
            _ => Err(USAGE.to_owned()),
        }
    });
    done.unwrap_or_else(|message| {
        eprintln!("schema-diff: {message}");
        ExitCode::from(2)
    })
}

fn run(options: &Options) -> Result<ExitCode, String> {
    let path = options.program.clone().ok_or_else(|| format!("no program was named\n{USAGE}"))?;
    let runner = options.runner.split_whitespace().map(str::to_owned).collect();
    let program = Program { runner, path };
    println!("seed {}", options.seed);
    match compare::run(&program, options.seed, options.count.unwrap_or(2_000_000)) {
        Ok(tally) => {
            println!("{tally} 0 differences");
            Ok(ExitCode::SUCCESS)
        }
        Err(Stop::Broken(message)) => Err(message),
        Err(Stop::Difference(found)) => {
            report(options, &program, *found)?;
            Ok(ExitCode::from(1))
        }
    }
}

/// Shrinks a differing case, prints it, and keeps it where that was asked for.
fn report(options: &Options, program: &Program, found: Difference) -> Result<(), String> {
    println!("DIFFERENCE in a case of {} bytes; looking for a smaller one", found.case.bytes());
    let answers = |cases: &[Case]| program.answers(cases).map_err(|error| error.to_string());
    let mut broken = None;
    let mut differs = |cases: &[Case]| -> Vec<bool> {
        let lines = answers(cases).unwrap_or_else(|error| {
            broken = Some(error);
            Vec::new()
        });
        let differs = |(case, line): (&Case, &Option<String>)| !Expected::of(case).is_met_by(line.as_deref());
        cases.iter().zip(&lines).map(differs).collect()
    };
    if differs(std::slice::from_ref(&found.case)) != [true] {
        println!("it is answered rightly when asked alone, so the program keeps something between cases:");
        print_case(&found.case, found.line);
        return save(options, &found.batch);
    }
    let smallest = shrink::shrink(found.case, &mut differs);
    if let Some(error) = broken {
        println!("shrinking broke off: {error}");
    }
    println!("smallest case found: {} bytes", smallest.bytes());
    print_case(&smallest, answers(std::slice::from_ref(&smallest))?.remove(0));
    save(options, &[smallest])
}

fn print_case(case: &Case, line: Option<String>) {
    let expected = Expected::of(case);
    println!("{}", describe(case));
    println!("  program:  {}", line.unwrap_or_else(|| "NO ANSWER".to_owned()));
    println!("  plain:    {}", expected.plain);
    match expected.original {
        Some(said) => println!("  original: {said}"),
        None => println!("  original: outside its domain"),
    }
}

fn save(options: &Options, cases: &[Case]) -> Result<(), String> {
    if let Some(file) = &options.save {
        let mut bytes = Vec::new();
        cases.iter().for_each(|case| case.write_to(&mut bytes));
        write(file, &bytes)?;
        println!("  saved as {file}");
    }
    Ok(())
}

fn write(file: &str, bytes: &[u8]) -> Result<(), String> {
    fs::write(file, bytes).map_err(|error| format!("{file}: {error}"))
}

fn write_record(options: &Options, program: &str, cases: &str, answers: &str) -> Result<ExitCode, String> {
    let part = record::Part::of(program).ok_or_else(|| format!("nothing is recorded for {program}"))?;
    let recording = record::record(part, options.seed);
    write(cases, &recording.cases)?;
    write(answers, recording.answers.as_bytes())?;
    println!("{} {} and {} bytes", recording.tally, recording.cases.len(), recording.answers.len());
    Ok(ExitCode::SUCCESS)
}

fn write_bench(options: &Options, folder: &str) -> Result<ExitCode, String> {
    fs::create_dir_all(folder).map_err(|error| format!("{folder}: {error}"))?;
    let repetitions = options.count.unwrap_or(10) as usize;
    for records in bench::RECORDS {
        let case = bench::case(records);
        let file = format!("{folder}/format-{records}.cases");
        write(&file, &bench::file(&case, repetitions))?;
        println!("{file}: {repetitions} cases of {records} records, depth {}", bench::depth(&case));
    }
    Ok(ExitCode::SUCCESS)
}

fn show(options: &Options, file: &str) -> Result<ExitCode, String> {
    let bytes = fs::read(file).map_err(|error| format!("{file}: {error}"))?;
    let mut rest = bytes.as_slice();
    for _ in 0..options.count.unwrap_or(0) {
        rest = Case::read_from(rest).ok_or("the file has fewer cases")?.1;
    }
    let (case, _) = Case::read_from(rest).ok_or("the file has fewer cases")?;
    print_case(&case, Some("not asked".to_owned()));
    Ok(ExitCode::SUCCESS)
}
