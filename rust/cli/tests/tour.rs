//! The tour: its commands, run in an empty folder, print what it says.

use std::path::Path;
use std::process::Command;
use std::{env, fs};

/// A command with its further lines, and what it prints.
struct Step {
    command: String,
    printed: String,
}

fn steps(tour: &str) -> Vec<Step> {
    let mut steps: Vec<Step> = Vec::new();
    for line in tour.lines().filter_map(|line| line.strip_prefix("    ")) {
        if let Some(command) = line.strip_prefix("$ ") {
            steps.push(Step { command: format!("{command}\n"), printed: String::new() });
            continue;
        }
        let step = steps.last_mut().expect("a command comes first");
        match line.strip_prefix("> ") {
            Some(further) => step.command.push_str(&format!("{further}\n")),
            None => step.printed.push_str(&format!("{line}\n")),
        }
    }
    steps
}

#[test]
fn the_tour_prints_what_it_says() {
    let folder = Path::new(env!("CARGO_TARGET_TMPDIR")).join("tour");
    let _ = fs::remove_dir_all(&folder);
    fs::create_dir_all(&folder).expect("it can be made");
    let command = Path::new(env!("CARGO_BIN_EXE_skiff")).parent().expect("a folder");
    let path = format!("{}:{}", command.display(), env::var("PATH").expect("there is one"));
    let steps = steps(include_str!("../../../docs/TOUR.md"));
    assert!(steps.len() > 10);
    for step in steps {
        let shell = Command::new("sh")
            .args(["-c", &format!("exec 2>&1\n{}", step.command)])
            .current_dir(&folder)
            .env("PATH", &path)
            .output();
        let printed = String::from_utf8(shell.expect("a shell runs").stdout).expect("text");
        assert_eq!(printed, step.printed, "of {}", step.command);
    }
}
