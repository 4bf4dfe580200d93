//! The lines beside the sample jobs, held against the second reader and the original's run.

use std::collections::{BTreeMap, BTreeSet};
use std::path::PathBuf;

use restated::case::Case;
use restated::expect::{expected, Expected};
use restated::jobs::{read, write, Job, Room};
use restated::texts::exact;
use restated::verdict::{judged, Reason, Verdict};

use crate::samples::samples;

const JOIN_SMALL: Room = Room {
    poses: 16,
    edges: 64,
    fixed: 16,
};

const JOIN: Room = Room {
    poses: 256,
    edges: 1024,
    fixed: 256,
};

/// `join` runs this one, but it is kept for `join_small`, whose refusal stands beside it: a second
/// line has no first one there.
const FOR_JOIN_SMALL: &str = "one_pose_too_many";

fn folder() -> PathBuf {
    PathBuf::from(env!("CARGO_MANIFEST_DIR")).join("../../jobs")
}

fn path(name: &str, ending: &str) -> PathBuf {
    folder().join(format!("{name}.{ending}"))
}

/// The folder's files of that ending.
fn files(ending: &str) -> BTreeSet<PathBuf> {
    let files = std::fs::read_dir(folder()).expect("the folder is there");
    let files = files.map(|file| file.expect("it can be listed").path());
    files
        .filter(|path| path.extension().is_some_and(|end| end == ending))
        .collect()
}

/// The line that a program of such room prints.
fn line(bytes: &[u8], room: Room) -> String {
    match read(bytes, room) {
        Err((number, place)) => format!("refused {number} at {place}\n"),
        Ok(job) => line_of_run(&job),
    }
}

/// The original's run.
fn ran(case: &Case) -> Expected {
    let e = expected(case);
    assert!(e.doubts.is_empty(), "{:?}", e.doubts);
    e
}

fn line_of_run(job: &Job) -> String {
    let case = job.case();
    let [number, place, iterations, converged, ..] = ran(&case).answer;
    if number != 0 {
        return format!("refused {number} at {place}\n");
    }
    let (poses, edges) = (case.pose_count(), case.edge_count());
    let converged = ["no", "yes"][converged as usize];
    format!("poses {poses} edges {edges} iterations {iterations} converged {converged}\n")
}

/// The line with which `join` says whether a job that it runs may be printed.
fn second_line(bytes: &[u8]) -> Option<String> {
    let case = read(bytes, JOIN).ok()?.case();
    let e = ran(&case);
    let verdict = judged(&case, e.answer[3] == 1, &e.poses?);
    let told = verdict.map_or("no, the last edge has no residual".to_string(), |verdict| {
        told(&verdict, e.answer[2], case.limit)
    });
    Some(format!("may be printed: {told}\n"))
}

/// Yes, or the first test that fails and what it compared.
fn told(verdict: &Verdict, iterations: u32, limit: u32) -> String {
    let [first, last, before, after] = verdict.measures;
    match verdict.failing().first() {
        None => "yes".to_string(),
        Some(Reason::NotConverged) => {
            format!("no, not converged (iterations {iterations}, limit {limit})")
        }
        Some(Reason::Tipped) => panic!("a job has no gravity"),
        Some(Reason::CostNotLower) => compared("the cost did not fall", first, last),
        Some(Reason::LastWorse) => compared("the last edge got worse", before, after),
    }
}

fn compared(what: &str, before: f64, after: f64) -> String {
    let (before, after) = (exact(before), exact(after));
    format!("no, {what} (before {before}, after {after})")
}

#[test]
fn each_line_is_what_the_program_says() {
    for (name, bytes) in samples() {
        let said = std::fs::read_to_string(path(name, "line")).unwrap_or_default();
        let room = if name == "evening" { JOIN } else { JOIN_SMALL };
        assert_eq!(said, line(&bytes, room), "{name}");
    }
}

#[test]
fn the_second_lines_are_what_join_says_and_no_others() {
    let read = |path: PathBuf| {
        let text = std::fs::read_to_string(&path).expect("it can be read");
        (path, text)
    };
    let stored: BTreeMap<PathBuf, String> = files("printing").into_iter().map(read).collect();
    let list = samples().into_iter();
    let said: BTreeMap<PathBuf, String> = list
        .filter(|(name, _)| *name != FOR_JOIN_SMALL)
        .filter_map(|(name, bytes)| Some((path(name, "printing"), second_line(&bytes)?)))
        .collect();
    assert_eq!(stored, said);
}

#[test]
fn an_evening_is_too_much_for_the_small_program() {
    let (name, bytes) = &samples()[0];
    assert_eq!(*name, "evening");
    assert_eq!(line(bytes, JOIN_SMALL), "refused 32 at 1620\n");
}

/// The job that `join` makes of a job, the poses by the original's run; none where it is refused.
fn joined(job: Job) -> Option<Vec<u8>> {
    let poses = expected(&job.case()).poses?;
    let poses = poses.iter().map(|x| x.to_bits()).collect();
    Some(write(&Job { poses, ..job }))
}

/// Where the gate finds it: the sample itself where nothing moved and nothing else is stored.
fn stored_joined(name: &str) -> PathBuf {
    let kept = path(name, "joined");
    match name {
        "evening" => folder().join("../crates/join/stdout"),
        _ if kept.exists() => kept,
        _ => path(name, "job"),
    }
}

#[test]
fn the_joined_jobs_are_the_originals() {
    let mut met = 0;
    for (name, bytes) in samples() {
        if !path(name, "printing").exists() {
            continue;
        }
        let job = read(&bytes, JOIN).expect("it fits");
        let stored = std::fs::read(stored_joined(name)).expect("it is stored");
        assert!(
            Some(stored) == joined(job),
            "{name}: another joined job is stored"
        );
        met += 1;
    }
    assert!(met >= 6, "only {met} met");
}

#[test]
fn the_folder_holds_these_jobs_and_no_others() {
    let path = |name: &str| path(name, "job");
    let named: BTreeSet<PathBuf> = samples().iter().map(|(name, _)| path(name)).collect();
    assert_eq!(files("job"), named);
    for (name, bytes) in samples() {
        assert!(
            std::fs::read(path(name)).is_ok_and(|file| file == bytes),
            "{name}"
        );
    }
}

#[test]
fn the_full_one_is_full() {
    let list = samples();
    let (_, bytes) = list
        .iter()
        .find(|(name, _)| *name == "full_small")
        .expect("it is there");
    let job = read(bytes, JOIN_SMALL).expect("it fits");
    let counts = [job.poses.len() / 12, job.ends.len() / 2, job.fixed.len()];
    assert_eq!(counts, [16, 64, 16]);
}
