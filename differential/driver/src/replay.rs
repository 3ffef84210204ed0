//! The program under test, asked over pipes: one process for a batch of questions.
use std::{
    io::{self, Read, Write},
    path::{Path, PathBuf},
    process::{Command, Stdio},
    thread,
};

#[derive(Clone)]
pub struct Replay(PathBuf);

impl Replay {
    pub fn new(path: &Path) -> Self {
        Replay(path.to_owned())
    }

    /// All answers to `questions`; a last line says so if the program failed.
    pub fn ask(&self, questions: String) -> io::Result<String> {
        let mut child = Command::new(&self.0).stdin(Stdio::piped()).stdout(Stdio::piped()).spawn()?;
        let mut stdin = child.stdin.take().expect("it is piped");
        // Questions are written by another thread, since neither pipe holds a whole batch.
        let writer = thread::spawn(move || stdin.write_all(questions.as_bytes()));
        let mut answers = String::new();
        let read = child.stdout.take().expect("it is piped").read_to_string(&mut answers);
        let written = writer.join().expect("the writer does not panic");
        let status = child.wait()?;
        read?;
        if !status.success() {
            let end = if answers.is_empty() || answers.ends_with('\n') { "" } else { "\n" };
            answers += &format!("{end}replay ended with {status}\n");
        } else {
            written?;
        }
        Ok(answers)
    }
}
