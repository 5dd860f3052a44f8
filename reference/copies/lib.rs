//! One copy of the Rust, with what its three files lean on and plain functions over arrays.
//!
//! The files themselves are made by build.rs. What stands here of openmvg-geometry and
//! openmvg-core are stand-ins for names that the files mention and that a solve never runs.
#![allow(dead_code)]

extern crate self as openmvg_core;

use nalgebra::{Matrix3, Point3, UnitVector3, Vector3};

#[cfg(target_arch = "x86_64")]
pub mod flags;
pub mod listed;
pub mod reach;
pub mod record;
pub mod stored;

pub type SolverResult<T> = Result<T, SolverError>;

#[derive(Debug)]
pub enum SolverError {
    InsufficientData { required: usize, provided: usize },
    InvalidSampleSize { expected: usize, provided: usize },
    InvalidDataIndex { index: usize, data_len: usize },
}

pub struct Radians;

pub mod solver_traits {
    use crate::SolverResult;

    pub trait Solver {
        type Datum;
        type Model;
        type Config;
        type Unit;
        fn min_sample_size() -> usize;
        fn residual(model: &Self::Model, datum: &Self::Datum) -> f64;
    }

    pub trait MultiSolutionSolver: Solver {
        fn solve(data: &[Self::Datum], config: &Self::Config) -> SolverResult<Vec<Self::Model>>;
        fn solve_from_indices(
            indices: &[usize],
            data: &[Self::Datum],
            config: &Self::Config,
        ) -> SolverResult<Vec<Self::Model>>;
    }
}

pub mod shared {
    #![allow(unused_imports)]
    include!(concat!(env!("OUT_DIR"), "/shared.rs"));
}

pub mod pose {
    use crate::SolverResult;
    use nalgebra::{Isometry3, Point3, UnitVector3};

    pub type SolverPose<T> = Isometry3<T>;

    #[derive(Debug, Clone)]
    pub struct WorldToCameraPose;

    pub struct BearingToPoint {
        pub world_point: Point3<f64>,
        pub bearing: UnitVector3<f64>,
    }

    pub fn camera_pose_from_world_to_camera(
        _: &SolverPose<f64>,
    ) -> SolverResult<WorldToCameraPose> {
        unreachable!("above the reference: solve_minimal")
    }

    pub fn bearing_pose_angular_residual(_: &SolverPose<f64>, _: &BearingToPoint) -> f64 {
        unreachable!("above the reference: residual")
    }

    pub mod p3p {
        use crate::stored::Stored;
        use nalgebra::{Point3, UnitVector3};

        include!(concat!(env!("OUT_DIR"), "/p3p.rs"));

        pub(crate) fn solve(world: [Point3<f64>; 3], bearings: [UnitVector3<f64>; 3]) -> usize {
            lambdatwist::LambdaTwistP3pSolver::solve_solver_minimal(world, bearings).len()
        }

        pub(crate) fn solve_stored(
            world: [Point3<f64>; 3],
            bearings: [UnitVector3<f64>; 3],
            stored: impl Stored,
        ) -> usize {
            plates::LambdaTwistP3pSolver::solve_solver_minimal(world, bearings, stored).len()
        }
    }
}

use pose::p3p::{common, lambdatwist};
use shared::polynomial;
use stored::Stored;

/// A whole answer: refusal number (0 if none), count, and four slots of twelve words
/// (rotation by columns, translation) with their update counts, and whether a pair of roots that
/// the pose came from was lifted.
#[derive(Clone, Copy, PartialEq, Debug, Default)]
pub struct Answer {
    pub refusal: u32,
    pub count: usize,
    pub poses: [[f64; 12]; 4],
    pub updates: [u32; 4],
    pub lifted: [bool; 4],
}

fn vector(words: &[f64]) -> Vector3<f64> {
    Vector3::new(words[0], words[1], words[2])
}

fn matrix(words: &[f64; 9]) -> Matrix3<f64> {
    Matrix3::from_column_slice(words)
}

fn words(matrix: &Matrix3<f64>) -> [f64; 9] {
    std::array::from_fn(|index| matrix.as_slice()[index])
}

fn world(input: &[f64]) -> [Point3<f64>; 3] {
    std::array::from_fn(|index| Point3::from(vector(&input[3 * index..])))
}

fn bearings(input: &[f64]) -> [UnitVector3<f64>; 3] {
    std::array::from_fn(|index| UnitVector3::new_unchecked(vector(&input[3 * index..])))
}

/// The reference: solve_solver_minimal on three world points and three bearings.
pub fn solve(input: &[f64; 18]) -> Answer {
    record::start();
    let count = pose::p3p::solve(world(input), bearings(&input[9..]));
    record::answer(count)
}

/// The same with a plate's stored numbers (document 02, §4).
pub fn solve_stored(points: &[f64; 9], directions: &[f64; 9], stored: impl Stored) -> Answer {
    record::start();
    let count = pose::p3p::solve_stored(world(points), bearings(directions), stored);
    record::answer(count)
}

/// The kind of the pair (0 two roots, 1 a discriminant of zero, 2 lifted) and the two roots, or 4
/// or 5.
pub fn quadratic(b: f64, c: f64) -> Result<(u32, [f64; 2]), u32> {
    let refused: u32 = if b.is_finite() && c.is_finite() { 5 } else { 4 };
    let roots = polynomial::quadratic_real_monic(b, c).ok_or(refused)?;
    Ok((record::kind(), roots))
}

/// One root, or 4 or 6.
pub fn cubic(b: f64, c: f64, d: f64) -> Result<f64, u32> {
    polynomial::polished_cubic_root(b, c, d)
        .ok_or(if b.is_finite() && c.is_finite() && d.is_finite() { 6 } else { 4 })
}

pub fn fast_cbrt(x: f64) -> f64 {
    polynomial::fast_cbrt(x)
}

/// The updates made and the depths then.
pub fn refine(
    depths: [f64; 3],
    edges: [f64; 3],
    cosines: [f64; 3],
    limit: usize,
) -> (u32, [f64; 3]) {
    let mut triple = vector(&depths);
    common::refine_depths(&mut triple, edges, cosines, limit);
    (record::updates(), triple.into())
}

pub fn ray_fits(camera: &[f64; 3], bearing: &[f64; 3]) -> bool {
    common::ray_fits(&vector(camera), &vector(bearing))
}

pub fn near(m: &[f64; 9]) -> bool {
    common::has_near_orthonormal_columns(&matrix(m))
}

pub fn project(m: &[f64; 9]) -> Option<[f64; 9]> {
    common::project_to_rotation(matrix(m)).map(|m| words(&m))
}

pub fn basis(first: &[f64; 3], second: &[f64; 3]) -> Option<[f64; 9]> {
    common::world_basis_inverse(vector(first), vector(second)).map(|m| words(&m))
}

pub fn edges(first: &[f64; 3], second: &[f64; 3], inverse: &[f64; 9]) -> [f64; 9] {
    words(&common::rotation_from_edges(vector(first), vector(second), &matrix(inverse)))
}

/// One push onto a list that holds `count` poses: the count then, and where it grew, the updates
/// and the twelve words of the pose pushed.
pub fn push(
    input: &[f64; 18],
    rotation: &[f64; 9],
    translation: &[f64; 3],
    updates: u32,
    count: usize,
) -> (usize, Option<(u32, [f64; 12])>) {
    let part = |at: usize| std::array::from_fn(|index| vector(&input[at + 3 * index..]));
    let input = common::P3pInput { world: part(0), bearings: part(9) };
    let mut output = common::SolverP3pSolutions::default();
    (0..count).for_each(|_| output.push(pose::SolverPose::identity()));
    record::holding(count, updates);
    input.push_edge_basis_pose_from_positive_depths(
        &mut output,
        matrix(rotation),
        vector(translation),
    );
    (output.len(), record::grown(count, output.len()))
}

/// The vectors, the values, and whether the pair that was not known was lifted.
pub fn eig(m: &[f64; 9]) -> Option<([f64; 9], [f64; 3], bool)> {
    let (m, v) = lambdatwist::eig_with_known_zero(&matrix(m))?;
    Some((words(&m), v.into(), record::eigenvalues_lifted()))
}

pub fn row_crosses(m: &[f64; 9], value: f64) -> Option<[f64; 3]> {
    lambdatwist::eigenvector_from_row_crosses(&matrix(m), value).map(|v| v.into())
}

pub fn condition(input: &[f64; 18]) -> f64 {
    let part = |at: usize| std::array::from_fn(|index| vector(&input[at + 3 * index..]));
    lambdatwist::leading_cubic_condition(part(0), part(9))
}
