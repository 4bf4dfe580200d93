//! Times the port beside the original, same process, same inputs, runs taken in turn: `bench [ROUNDS]`.
//! Medians and their ratio are printed, with what each figure means; exit 0 agree, 1 differ, or row 26's search takes too
//! long or is not seen, 2 bad arguments.

mod checks;
mod closing;
mod digits;
mod graphs;
mod inputs;
mod islands;
mod numbers;
mod sizes;
mod timing;

use std::process::ExitCode;

use graphs::{both_manifolds, ring_of_fifty, ring_of_sixty_five};
use restated::case::Case;
use timing::{medians, milliseconds, Assembly, Both, Solve, Whole};

const ROUNDS: usize = 9;

fn main() -> ExitCode {
    let arguments: Vec<String> = std::env::args().skip(1).collect();
    match rounds(&arguments) {
        Ok(rounds) if bench(rounds) => ExitCode::SUCCESS,
        Ok(_) => ExitCode::FAILURE,
        Err(line) => {
            eprintln!("bench [ROUNDS]: {line}");
            ExitCode::from(2)
        }
    }
}

fn rounds(arguments: &[String]) -> Result<usize, String> {
    match arguments {
        [] => Ok(ROUNDS),
        [text] => match text.parse() {
            Ok(rounds) if rounds > 0 => Ok(rounds),
            _ => Err(format!("ROUNDS is not a number above 0: {text}")),
        },
        _ => Err("too many arguments".into()),
    }
}

const MEANING: &str = "\
What the numbers mean: medians in milliseconds over interleaved runs, port and original in one process on one machine.
  In the lines with the original each time is the mean of 1, 2, 4 or more calls, so many that they last 5 ms together.
DOF 6: the plain manifold; DOF 4: the same graph with gravity, along -z.
assembly: the graph's checks, Jacobians, gradient and Hessian, once, at the first poses. The original's is the code of
  sparse_pgo.rs as it stands over stand-in rotations (document 01's f64 arithmetic), so the two do the same arithmetic.
whole run: checks to output. The original solves by the stand-in of faer, which is document 01's dense rule and no
  sparse solver: the ratio compares two programs under the same rules, and says nothing about the real faer.
solves: one damped solve of the first system, by the stand-in's dense rule on one side and the port's solve on the other.
scan: a ring of 50 views that drifted and 7 loops, from keyframes to verdict; pose_graph.rs as it stands, likewise.
The original makes its lists on the heap; the port writes into lent work, allocated before the clock starts.
assembly by number of edges: the same with 125 to 1,000 edges between 65 poses, all these lines in turn; milliseconds a
  call, and microseconds an edge, which stay about the same where the time grows linearly. What does not grow with the
  edges is in them too, and weighs more where edges are few: the port clears n (n + 3) numbers, and works out the
  transforms of all poses and the probes of the free ones; pgo_assemble clears a system of its own and copies it.
checks at the limits: microseconds a call, of the port alone. rows 1 to 13: a run that 13 refuses, for one free pose too
  many. search: what a run that 15 refuses takes more than that, which is row 26 (14 and 15 go through no list).
  assembly: pgo_assemble, all checks included; the search may take 1/20 of one (docs/wishes/6.md). In any order
  of its edges a graph that passes has one renaming for each free pose, and each renaming goes through all 256 labels.
  worst order: a renaming changes the labels of all free poses joined so far, at edges hard to foresee; best order: the
  same edges, but it changes one label, and the joining edges come first; bystanders: but for one edge a free pose all
  are between fixed poses, so that an assembly has the least to do.
roots and narrowing: nanoseconds a call, of independent calls | of calls that each wait for the answer before.
  digits is the function as it was before Wish 3 of document 02, in Rust: a root a digit a turn, and narrow with
  branches, which the port's compiler left out; processor is the one instruction for it. None is inlined. Inputs:
  ordinary, 2^-20 to 2^20; subnormal and huge, the ends of the input's format (for narrow those of f32, and past its
  top); hard, roots for which the port's first guess fails its test, ties and their neighbours (narrow).";

/// Whether all that was compared agreed.
fn bench(rounds: usize) -> bool {
    println!("{MEANING}\n");
    let graphs = [
        ("ring of 50 views, 6 loop edges", ring_of_fifty()),
        ("64 free poses, 1,000 edges", ring_of_sixty_five(1000)),
    ];
    let mut agreed = true;
    for (name, graph) in graphs {
        for case in both_manifolds(graph) {
            agreed &= lines(rounds, name, &case);
            println!();
        }
    }
    for part in [closing::bench, sizes::bench, checks::bench] {
        agreed &= part(rounds);
        println!();
    }
    numbers::bench(rounds) && agreed
}

/// Prints what is timed of one graph on its manifold; whether all that was compared agreed.
fn lines(rounds: usize, name: &str, case: &Case) -> bool {
    let (answer, agreed) = answer_line(case);
    let (edges, dof, n) = (case.edge_count(), case.dof(), case.unknowns());
    println!("{name} ({edges} edges, DOF {dof}, n = {n}); {answer}");
    line(rounds, "assembly", Assembly::new(case));
    line(rounds, "solve", Solve::new(case));
    line(rounds, "whole run", Whole::new(case));
    agreed
}

/// The port's answer, and whether the original's poses, Hessian and gradient have the same bits.
fn answer_line(case: &Case) -> (String, bool) {
    let (assembly, whole) = (Assembly::new(case), Whole::new(case));
    let (number, answer) = whole.answer();
    let counts = format!(
        "iterations {}, A {}, R {}, F {}, stop {}",
        answer[2], answer[4], answer[5], answer[6], answer[7]
    );
    let (text, agreed) = match (number, whole.agrees(), assembly.agrees()) {
        (0, true, true) => ("poses, Hessian and gradient as the original's", true),
        (0, false, _) => ("POSES DIFFER FROM THE ORIGINAL'S", false),
        (0, _, false) => ("HESSIAN OR GRADIENT DIFFER FROM THE ORIGINAL'S", false),
        _ => return (format!("refused {number} at {}", answer[1]), false),
    };
    (format!("{counts}, {text}"), agreed)
}

fn line(rounds: usize, name: &str, thing: impl Both) {
    let pair = &medians(rounds, &[thing])[0];
    let [port, original] = [pair.port, pair.original].map(milliseconds);
    let ratio = pair.ratio();
    println!("  {name:<10} port {port:>10.3} ms   original {original:>10.3} ms   port/original {ratio:.2}");
}
