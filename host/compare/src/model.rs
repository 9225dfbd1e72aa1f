//! The model as a side of the comparison: a Python process that answers one job after another.

use std::{
    io::{BufReader, BufWriter, Read, Write},
    process::{Child, ChildStdin, ChildStdout, Command, Stdio},
};

use job::answer::{Answer, Refusal, Request, Side};

use crate::paths;

/// Whether the model stands beside the repository. Where it does not, what needs it says so and is
/// left out; with `CI=true` that is a failure.
pub fn is_there() -> bool {
    let there = paths::model().is_dir();
    if !there {
        println!("comparison with the model skipped: ../shared/model is not beside the repository");
        assert!(std::env::var("CI").as_deref() != Ok("true"), "the model is missing");
    }
    there
}

pub struct Model {
    process: Child,
    requests: Option<BufWriter<ChildStdin>>,
    answers: BufReader<ChildStdout>,
}

impl Model {
    /// The model as it stands.
    pub fn new() -> Self {
        Self::start(&[])
    }

    /// The model with one of the misreadings of host/model/misreadings.py.
    pub fn misreading(name: &str) -> Self {
        Self::start(&[name])
    }

    fn start(arguments: &[&str]) -> Self {
        let mut process = Command::new("python3")
            .arg(paths::repository().join("host/model/answer.py"))
            .arg(paths::model())
            .args(arguments)
            .stdin(Stdio::piped())
            .stdout(Stdio::piped())
            .spawn()
            .expect("python3 runs the model");
        let requests = process.stdin.take().map(BufWriter::new);
        let answers = BufReader::new(process.stdout.take().expect("a pipe"));
        Model { process, requests, answers }
    }
}

impl Default for Model {
    fn default() -> Self {
        Self::new()
    }
}

impl Side for Model {
    fn answers(&mut self, requests: &[Request]) -> Vec<Answer> {
        let sink = self.requests.as_mut().expect("open until dropped");
        let source = &mut self.answers;
        // Both pipes are short: writing waits for answers to be read.
        std::thread::scope(|scope| {
            scope.spawn(|| write_requests(sink, requests).expect("the model reads requests"));
            requests.iter().map(|_| read_answer(source).expect("the model answers")).collect()
        })
    }
}

impl Drop for Model {
    fn drop(&mut self) {
        self.requests = None;
        let _ = self.process.wait();
    }
}

fn write_requests(sink: &mut impl Write, requests: &[Request]) -> std::io::Result<()> {
    for request in requests {
        let [variables, clauses, condition_literals, waiting] = request.limits.to_array();
        let (area, length) = (request.listing_area as u32, request.job.len() as u32);
        for number in [variables, clauses, condition_literals, waiting, area, length] {
            sink.write_all(&number.to_le_bytes())?;
        }
        sink.write_all(&request.job)?;
    }
    sink.flush()
}

fn read_answer(source: &mut impl Read) -> std::io::Result<Answer> {
    let mut number = || -> std::io::Result<usize> {
        let mut bytes = [0; 4];
        source.read_exact(&mut bytes)?;
        Ok(u32::from_le_bytes(bytes) as usize)
    };
    let (accepted, first, second, length) = (number()?, number()?, number()?, number()?);
    if accepted == 0 {
        return Ok(Answer::Refused(Refusal { number: first as u8, place: second }));
    }
    let mut listing = vec![0; length];
    source.read_exact(&mut listing)?;
    Ok(Answer::Accepted { variables: first, clauses: second, listing })
}
