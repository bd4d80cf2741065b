//! The command `skiff`: streams checked, counted, listed and indexed, and turned into JSON and back. What it says
//! of a stream is what the proved library says.

mod files;
mod index;
mod json;
mod line;
mod output;
mod progress;
mod read_rows;
mod schema_text;
mod wide;
mod words;
mod write_rows;

use std::process::ExitCode;

use clap::{value_parser, Arg, ArgAction, ArgMatches, Command};

use words::{Failure, Status};

fn format_argument() -> Arg {
    Arg::new("format").value_name("FORMAT").required(true).help(
        "A folder with schema.rec, schema.nam, tables.ref and registry.reg (the last two may be missing), or \
         a schema as text (see `skiff schema --help`)",
    )
}

fn stream_argument() -> Arg {
    Arg::new("stream").value_name("STREAM").required(true).help("The stream's file, or - for standard input")
}

fn limit(name: &'static str, help: &'static str) -> Arg {
    Arg::new(name).long(name).value_name("BYTES").value_parser(value_parser!(u64)).help(help)
}

/// The limits that reading and writing have.
fn blob_limits(command: Command) -> Command {
    command
        .arg(limit("max-string32-bytes", "The limit of a string32 [default: 134217728]"))
        .arg(limit("max-yson32-bytes", "The limit of a yson32 [default: 134217728]"))
}

fn reading(command: Command) -> Command {
    blob_limits(command)
        .arg(limit("max-row-bytes", "The limit of a row [default: 268435456]"))
        .arg(limit("node-charge", "What each value of a row costs [default: 48]"))
}

fn index_argument() -> Arg {
    Arg::new("index")
        .long("index")
        .value_name("PATH")
        .help("The index's file [default: that of the stream with .index behind its name]")
}

fn flag(name: &'static str, help: &'static str) -> Arg {
    Arg::new(name).long(name).action(ArgAction::SetTrue).help(help)
}

fn index_subcommand() -> Command {
    reading(Command::new("index"))
        .about("Builds the index of a stream, checks it, or extends it after rows were appended")
        .long_about(
            "Builds the index of a stream, checks it, or extends it after rows were appended.\n\nAn index has 16 \
             bytes for each row, from row 0 on: the row's offset in the stream (8 bytes), its length (4) and its \
             table (4), little-endian. Prints `end ROWS BYTES`, or the refusal in words; what is refused leaves the \
             file as it was. The stream is read as a whole.",
        )
        .arg(flag("check", "Whether the file is the stream's index, to the byte; nothing is written"))
        .arg(flag("extend", "Adds the rows after those that the file has").conflicts_with("check"))
        .arg(index_argument())
        .arg(format_argument())
        .arg(stream_argument())
}

fn row_subcommand() -> Command {
    reading(Command::new("row"))
        .about("Shows a row by its number, as the index finds it")
        .long_about(
            "Shows a row by its number, as the index finds it: its lines of a listing (`skiff list --help`), or a \
             line of JSON (`skiff cat --help`). Only the row's own record of the index is looked at, and no row \
             before it.",
        )
        .arg(flag("json", "As JSON"))
        .arg(index_argument())
        .arg(
            Arg::new("row")
                .value_name("N")
                .value_parser(value_parser!(u64))
                .required(true)
                .help("The row's number, from 0 on"),
        )
        .arg(format_argument())
        .arg(stream_argument())
}

fn command() -> Command {
    let output = Arg::new("output").short('o').long("output").value_name("PATH");
    Command::new("skiff")
        .version(env!("CARGO_PKG_VERSION"))
        .about("Skiff streams checked, counted, listed and indexed, and turned into JSON and back")
        .after_help("Exit status: 0 accepted, 1 refused, 2 usage or a file. Messages go to standard error.")
        .subcommand_required(true)
        .arg_required_else_help(true)
        .subcommand(
            Command::new("check").about("Whether the tables are a format").arg(format_argument()),
        )
        .subcommand(
            reading(Command::new("run"))
                .about("Counts the rows of streams, or says where and why one is refused")
                .long_about(
                    "Counts the rows of streams, or says where and why one is refused.\n\nPrints `end ROWS \
                     BYTES`, or the refusal in words; where several streams are given, each with its name \
                     before it, in the order given.",
                )
                .arg(format_argument())
                .arg(stream_argument().num_args(1..))
                .arg(
                    Arg::new("jobs")
                        .short('j')
                        .long("jobs")
                        .value_name("N")
                        .value_parser(value_parser!(u16).range(1..))
                        .default_value("1")
                        .help("How many streams are read side by side"),
                ),
        )
        .subcommand(
            reading(Command::new("list"))
                .about("Lists every value of a stream")
                .long_about(
                    "Lists every value of a stream, a line for each: the row from 0, the depth from 1, the \
                     tag, the kind and the value. The last line is `end ROWS BYTES` or `refused NUMBER PLACE`.",
                )
                .arg(format_argument())
                .arg(stream_argument()),
        )
        .subcommand(
            reading(Command::new("cat"))
                .about("Prints a stream's rows as JSON, a line for each")
                .long_about(json::ABOUT)
                .arg(flag("json", "As JSON").required(true))
                .arg(format_argument())
                .arg(stream_argument()),
        )
        .subcommand(index_subcommand())
        .subcommand(row_subcommand())
        .subcommand(
            blob_limits(Command::new("encode"))
                .about("Writes lines of JSON as a stream of table 0")
                .long_about(json::ABOUT)
                .arg(format_argument())
                .arg(
                    Arg::new("lines")
                        .value_name("LINES")
                        .default_value("-")
                        .help("The file of lines, or - for standard input"),
                )
                .arg(output.clone().help("The stream's file; standard output where none is given")),
        )
        .subcommand(
            Command::new("schema")
                .about("Turns a schema as text into flat tables, and back")
                .long_about(schema_text::ABOUT)
                .arg(format_argument())
                .arg(output.help("For a text: the folder that the tables are written to")),
        )
}

fn dispatch(matches: &ArgMatches) -> Result<Status, Failure> {
    match matches.subcommand() {
        Some(("check", given)) => read_rows::check(given),
        Some(("run", given)) => read_rows::run(given),
        Some(("list", given)) => read_rows::list(given),
        Some(("cat", given)) => read_rows::cat(given),
        Some(("index", given)) => index::index(given),
        Some(("row", given)) => index::row(given),
        Some(("encode", given)) => write_rows::encode(given),
        Some(("schema", given)) => write_rows::schema(given),
        other => unreachable!("clap asks for one of them: {other:?}"),
    }
}

fn main() -> ExitCode {
    // Usage is told by clap, with status 2.
    match dispatch(&command().get_matches()) {
        Ok(status) => ExitCode::from(status as u8),
        Err(failure) => {
            failure.tell();
            ExitCode::from(failure.status() as u8)
        }
    }
}

#[cfg(test)]
mod tests {
    #[test]
    fn the_command_is_well_formed() {
        super::command().debug_assert();
    }

    /// The man page names each subcommand and each option.
    #[test]
    fn the_man_page_is_whole() {
        let page = include_str!("../skiff.1").replace("\\-", "-");
        for subcommand in super::command().get_subcommands() {
            let name = subcommand.get_name();
            assert!(page.contains(&format!("\\fBskiff {name}")), "{name}");
            assert!(page.contains(&format!(".B {name}")), "{name}");
            for option in subcommand.get_arguments().filter_map(|argument| argument.get_long()) {
                assert!(page.contains(&format!("--{option}")), "{name} --{option}");
            }
        }
    }
}
