//! An evening's scan: fifty views of a depth camera that was carried once round a forearm, and that
//! lost its way by some centimetres.

use restated::case::Case;
use restated::graphs::{blank, push_edge, strayed};
use restated::places::Place;
use restated::random::Random;

const VIEWS: usize = 50;

/// Metres from the camera to the middle of the forearm.
const RADIUS: f64 = 0.35;

/// Views on both sides of the join that see the same patch of arm.
const LOOPS: [(usize, usize); 8] = [
    (49, 0),
    (48, 0),
    (49, 1),
    (48, 1),
    (47, 0),
    (49, 2),
    (47, 1),
    (48, 2),
];

/// The one generator of the sample.
fn generator() -> Random {
    Random::of_case(50, 1, 3)
}

/// Poses by dead reckoning from view to view, the steps and the loops as measured, view 0 fixed.
pub fn evening() -> Case {
    let random = &mut generator();
    let places = true_places(random);
    let mut case = blank(None);
    let mut reckoned = places[0];
    case.poses.extend(reckoned.numbers());
    for view in 1..VIEWS {
        let step = measured_step(random, &places, view);
        reckoned = step.after(reckoned);
        case.poses.extend(reckoned.numbers());
        push_edge(&mut case, view - 1, view, step.measured(), 1.0);
    }
    for (a, b) in LOOPS {
        let seen = strayed(random, between(&places, a, b), 0.0005, 0.0005);
        push_edge(&mut case, a, b, seen.measured(), 1.0);
    }
    case.fit();
    case
}

/// Each view looks at the forearm from RADIUS away, a fiftieth of a turn about the upright axis
/// from the one before, and is held a little askew; the first is the origin.
fn true_places(random: &mut Random) -> Vec<Place> {
    let turn = 2.0 * std::f64::consts::PI / VIEWS as f64;
    let ahead = Place::turned([0.0; 3], [0.0, 0.0, RADIUS]);
    let mut places = vec![Place::origin()];
    for view in 1..VIEWS {
        let round = Place::turned([0.0, view as f64 * turn, 0.0], [0.0; 3]);
        let askew = Place::turned(random.span3(0.03), random.span3(0.01));
        places.push(askew.after(ahead).after(round).after(ahead.inverse()));
    }
    places
}

/// What an exact measurement from a to b would be.
fn between(places: &[Place], a: usize, b: usize) -> Place {
    places[b].after(places[a].inverse())
}

/// The step to a view with its error: a steady part, which adds up, and a random one.
fn measured_step(random: &mut Random, places: &[Place], view: usize) -> Place {
    let steady = Place::turned([0.0001, 0.0004, -0.0001], [0.0003, 0.0006, 0.0002]);
    let step = between(places, view - 1, view);
    strayed(random, step.after(steady), 0.001, 0.001)
}

#[cfg(test)]
mod tests {
    use super::*;
    use kornia_3d::pose::Pose3d;

    /// Metres and degrees between a last view and where it truly was.
    fn missed(last: &Pose3d) -> (f64, f64) {
        let truth = restated::case::pose(&true_places(&mut generator())[VIEWS - 1].numbers());
        let gap = Pose3d::between(&truth, last);
        let turned = gap.rotation;
        let trace = turned.x_axis.x + turned.y_axis.y + turned.z_axis.z;
        let turn = ((trace - 1.0) / 2.0).min(1.0).acos();
        (gap.translation.length(), turn.to_degrees())
    }

    #[test]
    fn the_original_joins_it_and_the_last_view_comes_back() {
        let case = evening();
        let owned = case.owned();
        let joined = original::optimize(None, owned.plain(), &case.params()).expect("it runs");
        assert!(joined.converged);
        let blocks = original::blocks(owned.plain()).expect("the graph is good");
        let [before, after] = [&owned.poses, &joined.poses].map(|poses| {
            let cost = original::cost(poses, &owned.edges, &blocks);
            (cost.expect("it has a cost"), missed(&poses[VIEWS - 1]))
        });
        assert!(10.0 * after.0 < before.0, "{before:?} {after:?}");
        let (metres, degrees) = before.1;
        assert!((0.02..0.1).contains(&metres) && (0.5..3.0).contains(&degrees));
        let (metres, degrees) = after.1;
        assert!(metres < 0.002 && degrees < 0.2, "{after:?}");
    }

    #[test]
    fn every_view_stands_about_its_radius_from_the_middle() {
        for place in true_places(&mut generator()) {
            let middle = place.after(Place::turned([0.0; 3], [0.0, 0.0, RADIUS])).t;
            assert!((middle.length() - RADIUS).abs() < 0.02 && middle.z > 0.3);
        }
    }
}
