//! A target of a mounted plate is measured again, and the fitter looks before the plate takes it,
//! as include/preview.c.
//!
//!     cargo run --example preview

use p3p::{Plate, Poses, Refusal};

// The targets in metres, the checking target, and the hole.
const POINTS: [[f64; 3]; 3] = [[0.0, 0.0, 0.0], [0.5, 0.0, 0.0], [0.0, 0.375, 0.0]];
const CHECKING: [f64; 3] = [0.5, 0.375, 0.125];
const HOLE: [f64; 3] = [0.25, -0.5, 0.0];
// The angle in degrees up to which the checking target confirms a pose, by your measuring error.
const LIMIT: f64 = 0.01;

// The directions in which the camera sees the targets in the frame at hand, the last for checking.
// The third target has been knocked since the plate was made.
const DIRECTIONS: [[f64; 3]; 4] =
    [[-0.25, -0.125, 2.0], [0.15, -0.125, 2.3], [-0.253, 0.255, 2.004], [0.075, 0.25, 2.4]];

// What the fitter enters, one after another: a name, the target's number and its new point.
const ENTRIES: [(&str, u32, [f64; 3]); 5] = [
    ("target 3", 3, [0.0, 0.38, 0.005]),
    ("a NaN", 2, [0.0, f64::NAN, 0.005]),
    ("in a line", 2, [1.0, 0.0, 0.0]),
    ("a digit off", 2, [0.0, 0.39, 0.005]),
    ("as measured", 2, [0.0, 0.38, 0.005]),
];

/// What the frame shows with a plate: its squared edges; then a refusal, or what the best pose
/// gives.
struct View {
    squared_edges: [f64; 3],
    found: Result<Found, Refusal>,
}

/// Of the best pose whether it is lifted, how far the checking target is off its bearing, in
/// degrees, and where the hole is.
#[derive(Clone, Copy, PartialEq)]
struct Found {
    lifted: bool,
    angle: f64,
    camera: [f64; 3],
}

/// The frame's bearings to the targets, and that to the checking target.
struct Frame {
    bearings: [[f64; 3]; 3],
    checking: [f64; 3],
}

impl Frame {
    fn new() -> Self {
        let [f0, f1, f2, checking] = DIRECTIONS.map(|d| p3p::normalise(&d).expect("a direction"));
        Self { bearings: [f0, f1, f2], checking }
    }

    /// The view of poses that a solve or a preview has given.
    fn view(&self, squared_edges: [f64; 3], poses: Result<Poses, Refusal>) -> View {
        let found = poses.and_then(|poses| {
            let choice = p3p::choose(&poses, &CHECKING, &self.checking)?;
            let best = poses[choice.index];
            let angle = choice.score.sqrt().atan().to_degrees();
            Ok(Found { lifted: best.lifted, angle, camera: best.apply(&HOLE) })
        });
        View { squared_edges, found }
    }

    /// The view with a plate as it is stored.
    fn look(&self, plate: &Plate) -> View {
        self.view(plate.squared_edges(), plate.solve(&self.bearings))
    }

    /// The view with the plate as it would be with a target at another point.
    fn look_ahead(&self, plate: &Plate, target: u32, point: &[f64; 3]) -> View {
        let shown = plate.preview(target, point, &self.bearings); // the plate is only read
        self.view(shown.squared_edges, shown.poses)
    }
}

/// Whether the new point may be stored: the checking target confirms it by a pose that is not
/// lifted, and no worse than the present one.
fn is_acceptable(then: &View, now: &View) -> bool {
    then.found.map_or(false, |then| {
        let no_worse = now.found.map_or(true, |now| then.angle <= now.angle);
        !then.lifted && then.angle <= LIMIT && no_worse
    })
}

/// A line in millimetres and degrees.
fn print_view(name: &str, view: &View, verdict: &str) {
    let [e01, e02, e12] = view.squared_edges.map(|edge| 1000.0 * edge.sqrt());
    print!("{name:11} {e01:8.3} {e02:8.3} {e12:8.3}");
    match view.found {
        Ok(Found { angle, camera, .. }) => {
            let [x, y, z] = camera.map(|entry| 1000.0 * entry);
            print!(" {x:8.3} {y:8.3} {z:8.3} {angle:8.4}");
        }
        Err(refusal) => print!("  refused {:<26}", refusal.number()),
    }
    println!("  {verdict}");
}

fn main() -> Result<(), Refusal> {
    let (mut plate, frame) = (Plate::new(&POINTS)?, Frame::new());
    let mut now = frame.look(&plate);
    println!("{:12} {:25}  {:26} checking", "mm, degrees", "edges", "hole at camera");
    print_view("stored", &now, "as made");

    for (name, target, point) in ENTRIES {
        let then = frame.look_ahead(&plate, target, &point);
        if !is_acceptable(&then, &now) {
            print_view(name, &then, "not accepted");
            continue;
        }
        print_view(name, &then, "accepted");
        plate.replace(target, &point)?; // the hole is then the one shown, bit for bit
        now = frame.look(&plate);
        print_view(
            "stored",
            &now,
            if now.found == then.found { "as shown" } else { "not as shown" },
        );
    }
    Ok(())
}
