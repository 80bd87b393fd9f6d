//! The sessions of docs/CLI.md and README.md, run as they stand: what is printed there is what the program prints.

mod common;

use common::{Week, top};
use std::fs;

/// The lines of the sessions of a page, in their order.
fn sessions(page: &str) -> Vec<&str> {
    let mut lines = Vec::new();
    for block in page.split("```console\n").skip(1) {
        let (session, _) = block.split_once("```").expect("a session ends");
        lines.extend(session.lines());
    }
    lines
}

/// Runs each line behind `$ ` and compares what follows it, a status other than 0 at the end.
fn holds(page: &str, name: &str, commands: usize) {
    let week = Week::new(name);
    let text = fs::read_to_string(top().join(page)).expect("the page is there");
    let lines = sessions(&text);
    let mut rest = &lines[..];
    let mut run = 0;
    while let Some((line, behind)) = rest.split_first() {
        let line = line
            .strip_prefix("$ ")
            .expect("what follows a command is its output");
        let ran = week.shell(line);
        let status = format!("status {}", ran.status);
        let mut said: Vec<&str> = ran.out.lines().chain(ran.err.lines()).collect();
        said.extend((ran.status != 0).then_some(status.as_str()));
        let many = behind
            .iter()
            .take_while(|line| !line.starts_with("$ "))
            .count();
        assert_eq!(behind[..many], said, "{page}: {line}");
        rest = &behind[many..];
        run += 1;
    }
    assert!(run >= commands, "{page}: {run} commands");
}

#[test]
fn the_page_of_the_program() {
    holds("docs/CLI.md", "docs", 20);
}

#[test]
fn the_first_page() {
    holds("README.md", "readme", 5);
}
