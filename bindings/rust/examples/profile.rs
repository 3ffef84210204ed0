//! Which commit does a reference name? `profile FOLDER [NAME [NAMESPACE]]` looks into the snapshot of a folder, by default for HEAD.
//!
//! Beside each call stands what a program over `gix_ref::file::Store` has in its place.
use cosvint::{Error, Followed, Reference, Snapshot};
use std::path::Path;
use std::process::ExitCode;
use std::{env, fs, io};

/// The files of a snapshot.
struct Files {
    worktree: Vec<u8>,
    common: Option<Vec<u8>>,
    packed: Vec<u8>,
}

impl Files {
    /// A file that is missing is an absent region, or an empty worktree.
    fn at(folder: &Path) -> io::Result<Self> {
        let read = |file| match fs::read(folder.join(file)) {
            Err(error) if error.kind() == io::ErrorKind::NotFound => Ok(None),
            read => read.map(Some),
        };
        Ok(Files {
            worktree: read("worktree.blk")?.unwrap_or_default(),
            common: read("common.blk")?,
            packed: read("packed.blk")?.unwrap_or_default(),
        })
    }

    fn snapshot(&self) -> Snapshot<'_> {
        Snapshot::new(&self.worktree, self.common.as_deref(), &self.packed)
    }
}

fn shown(reference: &Reference) -> String {
    match reference.peeled {
        Some(peeled) => format!("{} {} peeled {peeled}", reference.name, reference.target),
        None => format!("{} {}", reference.name, reference.target),
    }
}

fn found(found: Result<Option<Reference>, Error>) -> String {
    match found {
        Ok(Some(reference)) => shown(&reference),
        Ok(None) => "not there".into(),
        Err(error) => error.to_string(),
    }
}

fn reached(end: &Result<Option<Followed>, Error>) -> String {
    match end {
        Ok(Some(end)) => format!("{} by {}", end.id, end.last.name),
        Ok(None) => "not there".into(),
        Err(error) => error.to_string(),
    }
}

/// Show what the snapshot says of a name, and all that it lists. Is there a commit that the name leads to?
fn show(snapshot: Snapshot<'_>, name: &str, namespace: Option<&[u8]>) -> bool {
    match snapshot.fitness() {
        Ok(()) => println!("snapshot: fit for search"),
        Err(error) => println!("snapshot: {error}"),
    }
    // store.try_find(name)?, and with an error in place of None store.find(name)?
    println!("{name}: {}", found(snapshot.find(name, namespace)));

    // store.find(name)?.follow_to_object(&store)?
    let end = snapshot.follow(name, namespace);
    println!("{name} leads to: {}", reached(&end));

    // for reference in store.iter()?.all()?
    match snapshot.list(namespace) {
        Ok(listing) => {
            let mut entries = 0;
            for entry in listing {
                println!("{}", entry.as_ref().map_or_else(Error::to_string, shown));
                entries += 1;
            }
            println!("{entries} entries");
        }
        Err(error) => println!("{error}"),
    }
    matches!(end, Ok(Some(_)))
}

fn main() -> ExitCode {
    let arguments: Vec<String> = env::args().skip(1).collect();
    if arguments.is_empty() || arguments.len() > 3 {
        eprintln!("usage: profile FOLDER [NAME [NAMESPACE]]");
        return ExitCode::from(2);
    }
    // file::Store::at(git_dir, options)
    let files = match Files::at(Path::new(&arguments[0])) {
        Ok(files) => files,
        Err(error) => {
            eprintln!("{}: {error}", arguments[0]);
            return ExitCode::from(2);
        }
    };
    let name = arguments.get(1).map_or("HEAD", String::as_str);
    let namespace = arguments.get(2).map(String::as_bytes);
    ExitCode::from(u8::from(!show(files.snapshot(), name, namespace)))
}
