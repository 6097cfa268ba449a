//! What the library takes beside time: code, stack, and the state that a caller keeps.

use crate::store::{edition_in_words, library};
use nekahuiro::limits::STATE_BYTES;
use nekahuiro::Edition;
use std::path::{Path, PathBuf};
use std::process::Command;

pub fn text() -> String {
    let root = root();
    Edition::ALL.into_iter().map(|edition| of(edition, root.as_deref())).collect()
}

fn of(edition: Edition, root: Option<&Path>) -> String {
    let code = root
        .and_then(|root| code(edition, root))
        .map_or("not counted, `size` or the archive isn't there".to_string(), |n| format!("{n} bytes"));
    let stack = root
        .and_then(|root| stack(edition, root))
        .unwrap_or("not measured, `cc` or the archive isn't there".to_string());
    let (store, work) = (edition.store_bytes(), edition.work_bytes());
    match edition {
        Edition::SECOND | Edition::PAIRS => {
            let edition = edition_in_words(edition);
            format!("# {edition}: code {code}; stack {stack}; store {store} bytes, working buffer {work}\n")
        }
        _ => format!("# code (.text of the archive): {code}\n# stack: {stack}\n# lent by the caller: state {STATE_BYTES} bytes, store {store}, working buffer {work}\n"),
    }
}

/// The repository in which this program was built.
fn root() -> Option<PathBuf> {
    let program = std::env::current_exe().ok()?;
    program.ancestors().find(|folder| folder.join("include/nekahuiro.h").is_file()).map(Path::to_path_buf)
}

fn archive(edition: Edition, root: &Path) -> PathBuf {
    root.join(format!("target/staticlib/lib{}.a", library(edition)))
}

/// The bytes of code and constants, as binutils counts them.
fn code(edition: Edition, root: &Path) -> Option<u64> {
    let output = Command::new("size").arg(archive(edition, root)).output().ok()?;
    let text = String::from_utf8_lossy(&output.stdout).to_string();
    text.lines().skip(1).map(|line| line.split_whitespace().next()?.parse::<u64>().ok()).sum()
}

/// What the test of the stack prints.
fn stack(edition: Edition, root: &Path) -> Option<String> {
    let program = std::env::temp_dir().join(format!("nekahuiro-stack-{}", std::process::id()));
    let mut compile = Command::new("cc");
    let test = match edition {
        Edition::SECOND => "tests/c/stack_edition2.c",
        Edition::PAIRS => "tests/c/stack_pairs.c",
        _ => "tests/c/stack.c",
    };
    compile.args(["-std=c11", "-O2", "-pthread", "-I"]).arg(root.join("include")).arg(root.join(test));
    let compiled = compile.arg(archive(edition, root)).arg("-o").arg(&program).output().ok()?.status.success();
    let output = Command::new(&program).output();
    let _ = std::fs::remove_file(&program);
    let output = output.ok().filter(|output| compiled && output.status.success())?;
    let text = String::from_utf8_lossy(&output.stdout).to_string();
    Some(
        text.lines()
            .map(|line| line.trim_start_matches("stack: "))
            .map(|line| line.trim_start_matches("edition 2 uses ").trim_start_matches("pages that can tear use "))
            .collect::<Vec<_>>()
            .join("; "),
    )
}
