//! Other solvers by the C interface of bench/peers/peers.cpp; without P3P_PEERS there are none.

#[cfg(peers)]
mod linked {
    use std::ffi::{CStr, c_char};

    unsafe extern "C" {
        fn peer_count() -> i32;
        fn peer_name(peer: i32) -> *const c_char;
        fn peer_solve(peer: i32, input: *const f64, poses: *mut f64) -> i32;
    }

    pub fn names() -> Vec<String> {
        let name = |peer| unsafe { CStr::from_ptr(peer_name(peer)) };
        (0..unsafe { peer_count() }).map(|peer| name(peer).to_string_lossy().into()).collect()
    }

    /// How many poses a peer finds, by its place in `names`, and the slots.
    pub fn solve(peer: usize, input: &[f64; 18]) -> (usize, [f64; 48]) {
        let mut poses = [0.0; 48];
        let count = unsafe { peer_solve(peer as i32, input.as_ptr(), poses.as_mut_ptr()) };
        (count as usize, poses)
    }
}

#[cfg(not(peers))]
mod linked {
    pub fn names() -> Vec<String> {
        Vec::new()
    }

    pub fn solve(_: usize, _: &[f64; 18]) -> (usize, [f64; 48]) {
        unreachable!()
    }
}

pub use linked::*;
