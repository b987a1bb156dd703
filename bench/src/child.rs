//! A Python script as a child that is told what to run, a line at a time, and answers each with a line.

use std::io::{BufRead, BufReader, Write};
use std::process::{ChildStdin, ChildStdout, Command, Stdio};

pub struct Child {
    child: std::process::Child,
    told: ChildStdin,
    said: BufReader<ChildStdout>,
}

impl Child {
    pub fn start(script: &str) -> std::io::Result<Child> {
        let mut child = Command::new("python3").arg(script).stdin(Stdio::piped()).stdout(Stdio::piped()).spawn()?;
        let told = child.stdin.take().expect("the child's input is a pipe");
        let said = BufReader::new(child.stdout.take().expect("the child's output is a pipe"));
        Ok(Child { child, told, said })
    }

    /// One command, and the line that answers it.
    pub fn tell(&mut self, command: &str) -> std::io::Result<String> {
        writeln!(self.told, "{command}")?;
        self.told.flush()?;
        let mut line = String::new();
        self.said.read_line(&mut line)?;
        Ok(line.trim_end().to_string())
    }

    pub fn stop(self) -> std::io::Result<()> {
        let Child { mut child, told, .. } = self;
        drop(told);
        child.wait().map(|_| ())
    }
}
