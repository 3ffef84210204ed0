//! Compares `replay` with the supplied files of gix-ref 0.69.1 on generated snapshots.
mod agree;
mod blocks;
mod claims;
mod compare;
mod contents;
mod corners;
mod cuts;
mod features;
mod generate;
mod git;
mod gititems;
mod gitrules;
mod gitrun;
mod layout;
mod names;
mod oracle;
mod pairs;
mod parallel;
mod record;
mod replay;
mod report;
mod rng;
mod run;
mod shrink;
mod snapshot;
mod text;
mod user;

use std::{
    env, fs, io,
    os::unix::fs::chown,
    path::{Path, PathBuf},
    process::{self, ExitCode},
};

use replay::Replay;

/// A directory in memory if there is one; it goes away at the end.
struct Scratch(PathBuf);

impl Scratch {
    fn new() -> io::Result<Self> {
        let shm = Path::new("/dev/shm");
        let base = if shm.is_dir() { shm.to_owned() } else { env::temp_dir() };
        let dir = base.join(format!("cosvint-differential-{}", process::id()));
        fs::create_dir(&dir)?;
        if user::is_root() {
            chown(&dir, Some(user::NOBODY), Some(user::NOBODY))?;
        }
        Ok(Scratch(dir))
    }
}

impl Drop for Scratch {
    fn drop(&mut self) {
        let _ = fs::remove_dir_all(&self.0);
    }
}

fn main() -> ExitCode {
    match start(&env::args().skip(1).collect::<Vec<_>>()) {
        Ok(true) => ExitCode::SUCCESS,
        Ok(false) => ExitCode::FAILURE,
        Err(err) => {
            eprintln!("differential: {err}");
            ExitCode::from(2)
        }
    }
}

fn start(args: &[String]) -> io::Result<bool> {
    let number = |i: usize, default: u64| match args.get(i) {
        None => Ok(default),
        Some(word) => word.parse().map_err(|_| io::Error::other(format!("not a number: {word}"))),
    };
    match args.first().map(String::as_str) {
        Some("run") => {
            let (seed, count) = (number(1, 1)?, number(2, 1_000_000)?);
            let (scratch, replay) = prepare()?;
            run::run(&scratch.0, &replay, seed, count)
        }
        Some("git") => {
            let (seed, count) = (number(1, 1)?, number(2, 100_000)?);
            let (scratch, replay) = prepare()?;
            gitrun::run(&scratch.0, &replay, seed, count)
        }
        Some("record") => {
            let (kilobytes, dir) = (number(1, 900)?, args.get(2).map_or("vectors/recorded", String::as_str));
            let out = record::Output::create(Path::new(dir))?;
            let scratch = Scratch::new()?;
            become_nobody(&scratch)?;
            record::record(&scratch.0, number(3, 1)?, kilobytes as usize * 1000, out)
        }
        _ => Err(io::Error::other(
            "usage: differential run [SEED] [COUNT] | git [SEED] [COUNT] | record [KB] [DIR] [SEED]",
        )),
    }
}

/// The scratch directory, and `replay` where another user can run it: a copy, or itself if copies can't be run.
fn prepare() -> io::Result<(Scratch, Replay)> {
    let path = env::var_os("COSVINT_REPLAY").map_or_else(|| PathBuf::from("crates/replay/out/replay"), PathBuf::from);
    let missing = |err| format!("{}: {err}; build it, or say in COSVINT_REPLAY where it is", path.display());
    let path = fs::canonicalize(&path).map_err(|err| io::Error::other(missing(err)))?;
    let scratch = Scratch::new()?;
    let copy = scratch.0.join("replay");
    fs::copy(&path, &copy)?;
    become_nobody(&scratch)?;
    for path in [copy, path] {
        let replay = Replay::new(&path);
        if replay.ask("mark\n".into()).is_ok_and(|answer| answer == "?\n") {
            return Ok((scratch, replay));
        }
    }
    Err(io::Error::other("replay cannot be run by another user, or does not answer `?` to a line without shape"))
}

fn become_nobody(scratch: &Scratch) -> io::Result<()> {
    user::drop_privileges(&scratch.0).map_err(|err| {
        io::Error::other(format!("run this as root, or as a user whom file permissions hold back: {err}"))
    })
}
