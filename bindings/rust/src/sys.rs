//! The functions of include/p3p.h. References and arrays stand for C's pointers to as many
//! elements; a `&mut` is never the same memory as another argument, as the header asks. A vector is
//! `[f64; 3]`, so that points, bearings and poses are arrays of vectors in the header's order.

/// A pose as the C functions hold it: the three columns of the rotation, and the translation.
pub type Slot = [[f64; 3]; 4];

extern "C" {
    // Numbers in and numbers out: there is nothing that a caller could break.
    pub fn p3p_sqrt(x: f64) -> f64;
    pub fn p3p_cbrt(x: f64) -> f64;
    pub fn p3p_fma(x: f64, y: f64, z: f64) -> f64;
    pub fn p3p_copysign(x: f64, y: f64) -> f64;
    pub fn p3p_max(x: f64, y: f64) -> f64;
    pub fn p3p_total_cmp(x: f64, y: f64) -> i32;
    pub fn p3p_fast_cbrt(x: f64) -> f64;

    pub fn p3p_quadratic(b: f64, c: f64, first: &mut f64, second: &mut f64) -> u32;
    pub fn p3p_quadratic_kind(
        b: f64,
        c: f64,
        first: &mut f64,
        second: &mut f64,
        kind: &mut u32,
    ) -> u32;
    pub fn p3p_cubic(b: f64, c: f64, d: f64, root: &mut f64) -> u32;
    pub fn p3p_solve(
        input: &[[f64; 3]; 6],
        poses: &mut [Slot; 4],
        updates: &mut [u32; 4],
        lifted: &mut [u32; 4],
        count: &mut u32,
    ) -> u32;
    pub fn p3p_choose(
        poses: &[Slot; 4],
        count: u32,
        target: &[f64; 3],
        bearing: &[f64; 3],
        best: &mut u32,
        score: &mut f64,
    ) -> u32;
    pub fn p3p_solve_about(
        input: &[[f64; 3]; 6],
        poses: &mut [Slot; 4],
        updates: &mut [u32; 4],
        lifted: &mut [u32; 4],
        count: &mut u32,
        origin: &mut [f64; 3],
    ) -> u32;
    pub fn p3p_choose_about(
        poses: &[Slot; 4],
        count: u32,
        origin: &[f64; 3],
        target: &[f64; 3],
        bearing: &[f64; 3],
        best: &mut u32,
        score: &mut f64,
    ) -> u32;
    // A plate's twenty-one doubles: points, squared edges, inverse by columns.
    pub fn p3p_plate_make(
        points: &[[f64; 3]; 3],
        plate: &mut [f64; 21],
        has_inverse: &mut u32,
    ) -> u32;
    pub fn p3p_plate_replace(
        plate: &mut [f64; 21],
        has_inverse: &mut u32,
        target: u32,
        point: &[f64; 3],
    ) -> u32;
    pub fn p3p_plate_exchange(
        plate: &mut [f64; 21],
        has_inverse: &mut u32,
        first: u32,
        second: u32,
    ) -> u32;
    pub fn p3p_plate_scale(plate: &mut [f64; 21], has_inverse: &mut u32, k: i32) -> u32;
    pub fn p3p_plate_solve(
        plate: &[f64; 21],
        has_inverse: u32,
        bearings: &[[f64; 3]; 3],
        poses: &mut [Slot; 4],
        updates: &mut [u32; 4],
        lifted: &mut [u32; 4],
        count: &mut u32,
    ) -> u32;
    pub fn p3p_plate_preview(
        plate: &[f64; 21],
        has_inverse: u32,
        target: u32,
        point: &[f64; 3],
        bearings: &[[f64; 3]; 3],
        poses: &mut [Slot; 4],
        updates: &mut [u32; 4],
        lifted: &mut [u32; 4],
        count: &mut u32,
        edges: &mut [f64; 3],
    ) -> u32;
    // `bytes` must be readable for `length` bytes.
    pub fn p3p_read_record(bytes: *const u8, length: usize, frame: &mut [[f64; 3]; 8]) -> u32;
}
