//! Job files: what is read, what is written, and what is refused.

use port::{Exports, JobRoom, EXPORTS};

use crate::plant::{all_seen, flip, planted, Plant};

/// The port with a change behind the reader: status, room and answer in.
macro_rules! behind_reader {
    ($change:expr) => {
        Exports {
            read_job: |bytes, mut room, answer| {
                let status = port::read_job(bytes, room.again(), answer);
                ($change)(status, room, answer);
                status
            },
            ..EXPORTS
        }
    };
}

/// The port with a change behind the writer: status, output and answer in.
macro_rules! behind_writer {
    ($change:expr) => {
        Exports {
            write_job: |job, out, answer| {
                let status = port::write_job(job, out, answer);
                ($change)(status, out, answer);
                status
            },
            ..EXPORTS
        }
    };
}

fn read(change: fn(JobRoom, &mut [u32])) -> impl Fn(u32, JobRoom, &mut [u32]) {
    move |status, room, answer| {
        if status == 0 {
            change(room, answer);
        }
    }
}

fn not_read(change: fn(JobRoom, &mut [u32])) -> impl Fn(u32, JobRoom, &mut [u32]) {
    move |status, room, answer| {
        if status != 0 {
            change(room, answer);
        }
    }
}

/// The last byte of what was written, whose length the answer holds.
fn written_byte(status: u32, out: &mut [u8], answer: &mut [u32]) {
    if status == 0 {
        flip(out[..answer[0] as usize].last_mut());
    }
}

fn byte_behind(status: u32, out: &mut [u8], answer: &mut [u32]) {
    if status == 0 {
        flip(out[answer[0] as usize..].first_mut());
    }
}

fn byte_of_a_refusal(status: u32, out: &mut [u8], _: &mut [u32]) {
    if status != 0 {
        flip(out.first_mut());
    }
}

fn place_of_a_refusal(status: u32, _: &mut [u8], answer: &mut [u32]) {
    if status != 0 {
        flip(answer.get_mut(1));
    }
}

fn on(kind: &'static str, what: &'static str, port: Exports) -> Plant {
    Plant { what, kind, port }
}

#[test]
fn what_is_read() {
    all_seen(&[
        on(
            "jobs",
            "a pose",
            behind_reader!(read(|r, _| flip(r.poses.last_mut()))),
        ),
        on(
            "jobs",
            "an end",
            behind_reader!(read(|r, _| flip(r.ends.last_mut()))),
        ),
        on(
            "jobs",
            "an edge",
            behind_reader!(read(|r, _| flip(r.edges.last_mut()))),
        ),
        on(
            "jobs",
            "a fixed pose",
            behind_reader!(read(|r, _| flip(r.fixed.last_mut()))),
        ),
        on(
            "jobs",
            "a setting",
            behind_reader!(read(|_, answer| flip(answer.get_mut(1)))),
        ),
        on(
            "jobs",
            "a count",
            behind_reader!(read(|_, answer| flip(answer.get_mut(5)))),
        ),
    ]);
}

#[test]
fn what_is_not_read() {
    let place = behind_reader!(not_read(|_, answer| flip(answer.get_mut(1))));
    let room = behind_reader!(not_read(|r, _| flip(r.poses.last_mut())));
    all_seen(&[
        on("jobs", "room of a refusal", room),
        on("job-cuts", "place", place),
        on("job-headers", "place", place),
        on("job-damage", "place", place),
    ]);
}

#[test]
fn what_is_written() {
    all_seen(&[
        on("jobs", "a byte", behind_writer!(written_byte)),
        on("jobs", "a byte behind", behind_writer!(byte_behind)),
        on(
            "jobs",
            "a byte of a refusal",
            behind_writer!(byte_of_a_refusal),
        ),
        on("jobs", "place", behind_writer!(place_of_a_refusal)),
    ]);
}

/// Another number comes back from either.
#[test]
fn what_comes_back() {
    let reader = Exports {
        read_job: |bytes, room, answer| {
            planted();
            port::read_job(bytes, room, answer) ^ 1
        },
        ..EXPORTS
    };
    let writer = Exports {
        write_job: |job, out, answer| {
            planted();
            port::write_job(job, out, answer) ^ 1
        },
        ..EXPORTS
    };
    all_seen(&[
        on("jobs", "what the reader gives back", reader),
        on("jobs", "what the writer gives back", writer),
    ]);
}
