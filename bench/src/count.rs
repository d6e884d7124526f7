//! Instructions of both sides, counted by callgrind in a run of this program for each.

use std::path::{Path, PathBuf};
use std::process::Command;

/// Which side is asked.
#[derive(Clone, Copy)]
pub enum Side {
    Port,
    Rust,
}

impl Side {
    pub fn name(self) -> &'static str {
        match self {
            Side::Port => "port",
            Side::Rust => "rust",
        }
    }

    pub fn named(name: &str) -> Option<Self> {
        [Side::Port, Side::Rust].into_iter().find(|side| side.name() == name)
    }
}

/// Calls that are counted, and functions that are shown.
const CALLS: u64 = 3;
const SHOWN: usize = 6;

/// memset without `rep stosb`, of which callgrind counts an instruction a byte.
const MEMSET: (&str, &str) = ("GLIBC_TUNABLES", "glibc.cpu.x86_rep_stosb_threshold=1000000000");

/// The instructions of a call, and the profile of all calls.
pub struct Counted {
    pub instructions: u64,
    profile: Profile,
}

/// A file of callgrind, removed at the end.
struct Profile(PathBuf);

impl Drop for Profile {
    fn drop(&mut self) {
        let _ = std::fs::remove_file(&self.0);
    }
}

/// Counts the instructions of a side with an input of this name.
pub fn counted(name: &str, side: Side) -> Result<Counted, String> {
    let file = format!("bench-{}-{name}-{}.callgrind", std::process::id(), side.name());
    let profile = Profile(std::env::temp_dir().join(file));
    let program = std::env::current_exe().map_err(|error| error.to_string())?;
    let run = Command::new("valgrind")
        .env(MEMSET.0, MEMSET.1)
        .args(["--tool=callgrind", &format!("--toggle-collect=ask_{}", side.name())])
        .arg(format!("--callgrind-out-file={}", profile.0.display()))
        .arg(program)
        .args(["calls", name, side.name(), &CALLS.to_string()])
        .output()
        .map_err(|error| format!("valgrind: {error}"))?;
    let said = String::from_utf8_lossy(&run.stderr);
    let all = said.lines().find_map(collected).ok_or_else(|| format!("valgrind: {said}"))?;
    Ok(Counted { instructions: all / CALLS, profile })
}

/// The number of a line `==PID== Collected : NUMBER`.
fn collected(line: &str) -> Option<u64> {
    line.split_once("Collected : ")?.1.trim().parse().ok()
}

impl Counted {
    /// The functions that have most of the instructions, with their part of all.
    pub fn functions(&self) -> Result<Vec<String>, String> {
        let run = Command::new("callgrind_annotate")
            .args(["--threshold=100", "--auto=no"])
            .arg(&self.profile.0)
            .output()
            .map_err(|error| format!("callgrind_annotate: {error}"))?;
        let said = String::from_utf8_lossy(&run.stdout);
        Ok(said.lines().filter_map(function).take(SHOWN).collect())
    }
}

/// The part and the name of a line `COUNT (PART%)  FILE:NAME [OBJECT]`, but for that of the totals.
fn function(line: &str) -> Option<String> {
    let (_, rest) = line.split_once('(')?;
    let (part, rest) = rest.split_once("%)")?;
    let (path, _) = rest.trim().rsplit_once(" [")?;
    let name = path.rsplit_once("???:").map_or_else(|| short(path), |(_, name)| name.to_string());
    Some(format!("{name} {}%", part.trim()))
}

/// The name of a function of a known file, without the file's path.
fn short(path: &str) -> String {
    let (file, name) = path.split_once(':').unwrap_or(("", path));
    let file =
        Path::new(file).file_name().map_or_else(String::new, |file| file.to_string_lossy().into());
    if name.is_empty() { file } else { name.to_string() }
}
