//! Where the tests' jobs stand.

use std::{fs, path::PathBuf};

use job::{
    answer::Request,
    recorded::{read_answers, read_jobs},
};

fn repository() -> PathBuf {
    PathBuf::from(concat!(env!("CARGO_MANIFEST_DIR"), "/../.."))
}

fn read(file: &str) -> String {
    fs::read_to_string(repository().join(file)).expect(file)
}

/// What is asked, and what `kitlist` would print with those limits and that listing area.
pub struct Known {
    pub name: String,
    pub request: Request,
    pub printed: String,
}

/// The recorded jobs and the examples.
pub fn known() -> Vec<Known> {
    let jobs = read_jobs(&read("recorded/jobs.txt")).into_iter();
    let answers = read_answers(&read("recorded/answers.txt"));
    let recorded = jobs.zip(answers).map(|(job, (name, printed))| {
        assert_eq!(job.name, name);
        Known { name, request: job.request, printed }
    });
    recorded.chain(examples()).collect()
}

fn examples() -> Vec<Known> {
    let directory = fs::read_dir(repository().join("examples")).expect("examples");
    let files = directory.map(|entry| entry.expect("an entry").path());
    let jobs = files.filter(|file| file.extension().is_some_and(|extension| extension == "bytes"));
    let example = |file: PathBuf| Known {
        name: file.display().to_string(),
        request: Request::kitlist(fs::read(&file).expect("a job")),
        printed: fs::read_to_string(file.with_extension("listing")).expect("a listing"),
    };
    jobs.map(example).collect()
}
