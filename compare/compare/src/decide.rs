//! The decisions alone: `pgo_decide` over a prepared list against the restated ones.

use port::Exports;
use restated::all_same32;
use restated::decide::List;
use restated::lists::list;
use restated::random::Random;

use crate::comparison::Comparison;
use crate::tally::Checked;

const FOUND_ANSWER: [u32; 8] = [0xDEAD_BEEF; 8];
const FOUND_COSTS: [f32; 2] = [-123.5, 321.25];

/// The differences of one list.
pub fn check_list(port: &Exports, list: &List) -> Vec<String> {
    let (events, prices) = list.flat();
    let decisions = port::Decisions {
        limit: list.limit,
        tolerance: list.tolerance,
        cost: list.cost,
        damping: list.damping,
        events: &events,
        prices: &prices,
    };
    let (mut answer, mut costs) = (FOUND_ANSWER, FOUND_COSTS);
    let status = (port.decide)(decisions, &mut answer, &mut costs);
    let decided = list.decided();
    let agree = status == decided.status
        && answer == decided.answer.unwrap_or(FOUND_ANSWER)
        && all_same32(&costs, &decided.costs.unwrap_or(FOUND_COSTS));
    if agree {
        return Vec::new();
    }
    vec![format!(
        "decide: port {status} {answer:?} {costs:?}, expected {decided:?} for {list:?}"
    )]
}

pub fn check_random(random: &mut Random, c: &mut Comparison) -> Checked {
    let list = list(random);
    Checked {
        lines: check_list(&c.port, &list),
        input: format!("{list:?}"),
    }
}
