//! Tests the judge: each edit in faults/ is made in a copy of the plain table, and the judge has to
//! notice it. Run from the folder that holds faults/, plain/ and text/.

use std::fs;
use std::io::{Error, Result};
use std::path::{Path, PathBuf};
use std::process::{Command, ExitCode};

const COPY: &str = "target/faults";

struct Edit {
    name: String,
    file: String,
    old: String,
    new: String,
}

fn read_edit(path: &Path) -> Result<Edit> {
    let text = fs::read_to_string(path)?;
    let field = |name: &str| {
        let mut lines = text.lines();
        let line = lines.find_map(|line| line.strip_prefix(name));
        line.map(|rest| rest.strip_prefix(' ').unwrap_or(rest).replace("\\n", "\n"))
            .ok_or_else(|| Error::other(format!("{}: no {name}", path.display())))
    };
    Ok(Edit {
        name: path
            .file_stem()
            .unwrap_or_default()
            .to_string_lossy()
            .into(),
        file: field("file:")?,
        old: field("old:")?,
        new: field("new:")?,
    })
}

fn copy_folder(from: &Path, to: &Path) -> Result<()> {
    fs::create_dir_all(to)?;
    for entry in fs::read_dir(from)? {
        let entry = entry?;
        let target = to.join(entry.file_name());
        if entry.file_type()?.is_dir() {
            copy_folder(&entry.path(), &target)?;
        } else {
            fs::copy(entry.path(), target)?;
        }
    }
    Ok(())
}

fn copy_table() -> Result<()> {
    copy_folder(Path::new("text"), &Path::new(COPY).join("text"))?;
    copy_folder(Path::new("plain"), &Path::new(COPY).join("plain"))?;
    let workspace = "[workspace]\nresolver = \"2\"\nmembers = [\"text\", \"plain\"]\n";
    fs::write(Path::new(COPY).join("Cargo.toml"), workspace)
}

fn build(edit: &Edit) -> Result<()> {
    copy_table()?;
    let file = Path::new(COPY).join("plain").join(&edit.file);
    let text = fs::read_to_string(&file)?;
    if text.matches(&edit.old).count() != 1 {
        return Err(Error::other(format!(
            "{}: the old text is not there once",
            edit.name
        )));
    }
    fs::write(&file, text.replace(&edit.old, &edit.new))?;
    let status = Command::new("cargo")
        .args([
            "build",
            "--quiet",
            "--release",
            "--offline",
            "--bin",
            "model",
        ])
        .current_dir(COPY)
        .env("CARGO_TARGET_DIR", "target")
        .env("RUSTFLAGS", "-Awarnings")
        .status()?;
    match status.success() {
        true => Ok(()),
        false => Err(Error::other(format!("{}: does not build", edit.name))),
    }
}

/// The judge's words, if it notices.
fn noticed(judge: &Path) -> Result<Option<String>> {
    let output = Command::new(judge)
        .args([
            "--depth",
            "2",
            "--calls",
            "300000",
            "--differences",
            "1",
            "--",
        ])
        .arg(Path::new(COPY).join("target/release/model"))
        .output()?;
    let words = String::from_utf8_lossy(&output.stdout).into_owned();
    Ok((output.status.code() == Some(1)).then_some(words))
}

fn main() -> Result<ExitCode> {
    let judge = std::env::current_exe()?.with_file_name("judge");
    let only = std::env::args().nth(1);
    let mut paths: Vec<PathBuf> = Vec::new();
    for entry in fs::read_dir("faults")? {
        paths.push(entry?.path());
    }
    paths.sort();
    let (mut seen, mut missed) = (0, 0);
    for path in paths {
        let edit = read_edit(&path)?;
        if only.as_ref().is_some_and(|only| *only != edit.name) {
            continue;
        }
        build(&edit)?;
        match noticed(&judge)? {
            Some(words) => {
                seen += 1;
                println!("noticed {}", edit.name);
                let list = words.lines().take_while(|line| !line.starts_with("lists"));
                list.skip(1).for_each(|line| println!("  {line}"));
            }
            None => {
                missed += 1;
                println!("MISSED {}", edit.name);
            }
        }
    }
    println!("{seen} noticed, {missed} missed");
    Ok(ExitCode::from(u8::from(missed > 0)))
}
