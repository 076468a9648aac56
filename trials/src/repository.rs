//! The temporary repository: a copy of `crates/rules` and the crate `trial`, which holds the checks.

use crate::check::{declaration, Check};
use crate::text::TEXT;
use std::fs;
use std::io;
use std::path::{Path, PathBuf};
use std::process::{self, Command};
use std::sync::atomic::{AtomicUsize, Ordering};

const CRATES: &str = "rules:\ntrial: rules\n";

/// The folder of the crate `trial`.
const TRIAL: &str = "crates/trial";

const HEADER: &str = "use Rattle.std.specs.Prelude.{ℕ, List, [], ◌∷◌, T}
use Rattle.rules.specs.Bytes.{bytes, same}
use Rattle.rules.specs.Rules.{rules}
use Rattle.rules.specs.Answers.{read_into, respell_into, find_into, first_name}
use Rattle.trial.specs.Text.{read_text, spell_text, find_text, part_text, texts}

";

/// The most checks in one file.
const CHECKS_IN_FILE: usize = 500;

/// What `rt check` answered. Status 0: all proved, 1: something refused.
#[derive(Clone, Debug)]
pub struct Verdict {
    pub status: Option<i32>,
    pub output: String,
}

impl Verdict {
    pub fn is_proved(&self) -> bool {
        self.status == Some(0)
    }

    /// Whether an error is about the declaration of this name.
    pub fn refuses(&self, name: &str) -> bool {
        self.output.contains(&format!(": error: `{name}`:"))
    }
}

/// Proves the checks in a temporary repository, which is removed afterwards.
pub fn prove(checks: &[Check]) -> io::Result<Verdict> {
    let repository = Repository::create()?;
    repository.write(checks)?;
    let output = Command::new("rt").arg("check").current_dir(repository.root.join(TRIAL)).output()?;
    let text = [output.stdout, output.stderr].concat();
    Ok(Verdict { status: output.status.code(), output: String::from_utf8_lossy(&text).into_owned() })
}

/// A fresh folder, removed when dropped.
struct Repository {
    root: PathBuf,
}

impl Repository {
    fn create() -> io::Result<Repository> {
        static COUNT: AtomicUsize = AtomicUsize::new(0);
        loop {
            let number = COUNT.fetch_add(1, Ordering::Relaxed);
            let root = std::env::temp_dir().join(format!("trials-{}-{number}", process::id()));
            match fs::create_dir(&root) {
                Err(error) if error.kind() == io::ErrorKind::AlreadyExists => continue,
                created => return created.map(|()| Repository { root }),
            }
        }
    }

    fn write(&self, checks: &[Check]) -> io::Result<()> {
        copy_folder(&project_root().join("crates/rules"), &self.root.join("crates/rules"))?;
        fs::write(self.root.join("crates.txt"), CRATES)?;
        let trial = self.root.join(TRIAL);
        fs::create_dir_all(trial.join("src"))?;
        fs::write(trial.join("src/lib.rt"), "// the checks are in specs\n")?;
        let specs = trial.join("specs");
        fs::create_dir_all(&specs)?;
        fs::write(specs.join("Text.antt"), TEXT)?;
        let mut modules = String::from("pub mod Text\n");
        for (number, part) in checks.chunks(CHECKS_IN_FILE).enumerate() {
            let declarations: String = part.iter().map(declaration).collect();
            fs::write(specs.join(format!("Cases{number}.antt")), format!("{HEADER}{declarations}"))?;
            modules.push_str(&format!("pub mod Cases{number}\n"));
        }
        fs::write(specs.join("Lib.antt"), modules)
    }
}

impl Drop for Repository {
    fn drop(&mut self) {
        // what cannot be removed stays in the temporary folder
        let _ = fs::remove_dir_all(&self.root);
    }
}

/// The folder above this package.
pub fn project_root() -> PathBuf {
    Path::new(env!("CARGO_MANIFEST_DIR")).join("..")
}

/// Copies a folder with all it holds, built files aside.
fn copy_folder(from: &Path, to: &Path) -> io::Result<()> {
    fs::create_dir_all(to)?;
    for entry in fs::read_dir(from)? {
        let entry = entry?;
        let target = to.join(entry.file_name());
        if !entry.file_type()?.is_dir() {
            fs::copy(entry.path(), target)?;
        } else if entry.file_name() != "out" {
            copy_folder(&entry.path(), &target)?;
        }
    }
    Ok(())
}
