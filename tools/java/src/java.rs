//! Java: started once, asked a line for each request.

use std::error::Error;
use std::io::{BufRead, BufReader};
use std::process::{Child, ChildStdin, ChildStdout, Command, Stdio};

use crate::case::unescape;

/// Java's answer.
#[derive(Debug, Clone, PartialEq)]
pub enum Java {
    Text(Vec<u8>),
    Refused(String),
}

pub struct Answers {
    child: Child,
    from: BufReader<ChildStdout>,
}

impl Answers {
    /// Starts Java; requests go into the pipe. A trace of the stack for each refusal would cost more than the refusal.
    pub fn start(folder: &str) -> Result<(Self, ChildStdin), Box<dyn Error>> {
        let mut child = Command::new("java")
            .args(["-XX:+UseSerialGC", "-XX:-StackTraceInThrowable", "-Dline.separator=\n", "-cp", folder, "Answers"])
            .stdin(Stdio::piped())
            .stdout(Stdio::piped())
            .spawn()?;
        let to = child.stdin.take().expect("piped");
        let from = BufReader::new(child.stdout.take().expect("piped"));
        Ok((Answers { child, from }, to))
    }

    pub fn next(&mut self) -> Result<Java, Box<dyn Error>> {
        let mut line = Vec::new();
        self.from.read_until(b'\n', &mut line)?;
        if line.pop() != Some(b'\n') {
            return Err("Java ended before its answer".into());
        }
        match line.first() {
            Some(b'=') => Ok(Java::Text(unescape(&line[1..]))),
            Some(b'!') => Ok(Java::Refused(String::from_utf8(line[1..].to_vec())?)),
            _ => Err(format!("no answer: {}", line.escape_ascii()).into()),
        }
    }

    pub fn wait(mut self) -> Result<(), Box<dyn Error>> {
        self.child.wait()?;
        Ok(())
    }
}
