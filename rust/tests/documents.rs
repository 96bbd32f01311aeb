//! What the documents show is what the commands write. In README.md and docs/SETTINGS.md an indented block whose first
//! line is `$ COMMAND` is run in the tree, and must write the rest of the block, standard error included. The tree is in
//! the environment variable TREE; without it nothing is run.
use std::path::Path;
use std::process::Command;
use std::{env, fs};

const DOCUMENTS: [&str; 2] = ["README.md", "docs/SETTINGS.md"];

/// A command that a document shows: where, the command, and what it is said to write.
struct Shown {
    line: usize,
    command: String,
    writes: String,
}

fn shown(text: &str) -> Vec<Shown> {
    let mut found: Vec<Shown> = Vec::new();
    let mut inside = false;
    for (before, line) in text.lines().enumerate() {
        let code = line.strip_prefix("    ");
        match code.and_then(|code| code.strip_prefix("$ ")) {
            Some(command) => {
                found.push(Shown { line: before + 1, command: command.into(), writes: String::new() });
                inside = true;
            }
            None => inside &= code.is_some(),
        }
        if let (true, Some(code), Some(last)) = (inside, code, found.last_mut()) {
            if !code.starts_with("$ ") {
                last.writes += code;
                last.writes += "\n";
            }
        }
    }
    found
}

fn run(tree: &Path, command: &str) -> String {
    let both = format!("({command}) 2>&1");
    let output = Command::new("sh").args(["-c", &both]).current_dir(tree).output().expect("sh starts");
    String::from_utf8_lossy(&output.stdout).into_owned()
}

#[test]
fn commands_write_what_is_shown() {
    let Some(tree) = env::var_os("TREE") else {
        println!("TREE is not set: no command was run");
        return;
    };
    for document in DOCUMENTS {
        let text = fs::read_to_string(Path::new(&tree).join(document)).expect(document);
        let commands = shown(&text);
        assert!(!commands.is_empty(), "{document} shows no command");
        for Shown { line, command, writes } in commands {
            assert_eq!(run(tree.as_ref(), &command), writes, "{document}:{line}: {command}");
        }
    }
}

#[test]
fn blocks_are_found() {
    let text = "text\n\n    $ one\n    1\n    2\n\ntext\n\n    $ two\n    $ three\n    3\ntext\n    no\n";
    let found: Vec<_> = shown(text).into_iter().map(|it| (it.line, it.command, it.writes)).collect();
    let all = [(3, "one", "1\n2\n"), (9, "two", ""), (10, "three", "3\n")];
    assert_eq!(found, all.map(|(line, command, writes)| (line, command.to_string(), writes.to_string())));
}
