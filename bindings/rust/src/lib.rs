//! The three-point pose solver, its root finders and single operations: safe functions over the
//! library that `rt lib` in crates/p3p writes. Each answers every input, infinities and NaNs too,
//! with the bits that its definition gives (crates/p3p); nothing allocates.
//!
//! ```
//! // A plate with four targets, two metres in front of the camera, and the directions to them.
//! let plate = [[-0.2, -0.1, 0.0], [0.3, -0.1, 0.0], [-0.2, 0.25, 0.05], [0.3, 0.2, 0.1]];
//! let seen = plate.map(|[x, y, z]| p3p::normalise(&[x, y, z + 2.0]).unwrap());
//! let [p0, p1, p2, target] = plate;
//! let [f0, f1, f2, bearing] = seen;
//! let poses = p3p::solve(&[p0, p1, p2], &[f0, f1, f2])?;
//! // The fourth target tells which of the poses it was, and how well it fits.
//! let choice = p3p::choose(&poses, &target, &bearing)?;
//! assert!(choice.score.sqrt().atan() < 1e-9);
//! let [x, y, z] = poses[choice.index].apply(&[0.1, 0.1, 0.0]);
//! assert!((x - 0.1).abs() < 1e-9 && (y - 0.1).abs() < 1e-9 && (z - 2.0).abs() < 1e-9);
//!
//! // Far from zero, solve about the first target: its poses subtract it themselves.
//! let grid = plate.map(|[x, y, z]| [x + 691000.25, y + 5334000.5, z + 512.125]);
//! let poses = p3p::solve_about(&[grid[0], grid[1], grid[2]], &[f0, f1, f2])?;
//! let choice = p3p::choose_about(&poses, &grid[3], &bearing)?;
//! let [x, y, z] = poses[choice.index].apply(&[691000.35, 5334000.6, 512.125]);
//! assert!((x - 0.1).abs() < 1e-8 && (y - 0.1).abs() < 1e-8 && (z - 2.0).abs() < 1e-8);
//!
//! // A plate that serves many frames is made once.
//! let known = p3p::Plate::new(&[p0, p1, p2])?;
//! assert_eq!(known.solve(&[f0, f1, f2]), p3p::solve(&[p0, p1, p2], &[f0, f1, f2]));
//!
//! // What has no answer is refused, with the reason.
//! let nowhere = [[f64::INFINITY, 0.0, 0.0], [0.0; 3], [0.0; 3]];
//! assert_eq!(p3p::solve(&nowhere, &[f0, f1, f2]), Err(p3p::Refusal::InputNotFinite));
//! # Ok::<(), p3p::Refusal>(())
//! ```
//!
//! The processor's floating-point settings must be those that a program starts with; include/p3p.h
//! says what else would go wrong.
#![warn(missing_docs)]

mod about;
mod bearing;
mod plate;
mod poses;
mod records;
mod refusal;
mod roots;
mod single;
mod sys;

pub use about::{choose_about, solve_about, PoseAbout, PosesAbout};
pub use bearing::normalise;
pub use plate::{Plate, Preview, StoredPlate};
pub use poses::{choose, solve, Choice, Pose, Poses};
pub use records::{read_record, records, Frame, Records, RECORD_SIZE};
pub use refusal::Refusal;
pub use roots::{cubic, fast_cbrt, quadratic, quadratic_kind, Kind};
pub use single::{cbrt, copysign, fma, max, sqrt, total_cmp};
