//! The calls into the archive. All that is unsafe in this crate is the one block below.
//!
//! The C functions ask of a caller that the memory lent is there, and that what they may write overlaps nothing else (`include/dimetumble.h`).
//! They check everything else themselves and refuse it by a number. A Rust slice or reference gives just that, so the functions here are safe
//! for all arguments.
#![allow(unsafe_code)]
#![allow(clippy::too_many_arguments)]

/// Declares a C function and the safe function over it, of one list of parameters. A slice goes over as a pointer and a length, a reference to
/// one value as a pointer, everything else by value.
macro_rules! native {
    // all parameters are read: those of the safe function, those of the C function, and what is passed
    (@ $name:ident $symbol:ident [$($safe:tt)*] [$($c:tt)*] [$($passed:tt)*]) => {
        pub fn $name($($safe)*) -> usize {
            extern "C" {
                fn $symbol($($c)*) -> usize;
            }
            // SAFETY: the declaration has the types of `include/dimetumble.h`, in its order. Each pointer comes from a slice or a reference that
            // lives through the call: it is aligned, not null, and valid for as many entries as are said. What is written comes from `&mut`, so
            // nothing else reaches it. The function is proved to end and to stay inside what it is lent, for all values, and keeps no pointer.
            unsafe { $symbol($($passed)*) }
        }
    };
    (@ $name:ident $symbol:ident [$($safe:tt)*] [$($c:tt)*] [$($passed:tt)*] $x:ident: &[$t:ty], $($rest:tt)*) => {
        native!(@ $name $symbol [$($safe)* $x: &[$t],] [$($c)* _: *const $t, _: usize,] [$($passed)* $x.as_ptr(), $x.len(),] $($rest)*);
    };
    (@ $name:ident $symbol:ident [$($safe:tt)*] [$($c:tt)*] [$($passed:tt)*] $x:ident: &mut [$t:ty], $($rest:tt)*) => {
        native!(@ $name $symbol [$($safe)* $x: &mut [$t],] [$($c)* _: *mut $t, _: usize,] [$($passed)* $x.as_mut_ptr(), $x.len(),] $($rest)*);
    };
    (@ $name:ident $symbol:ident [$($safe:tt)*] [$($c:tt)*] [$($passed:tt)*] $x:ident: &mut $t:ty, $($rest:tt)*) => {
        native!(@ $name $symbol [$($safe)* $x: &mut $t,] [$($c)* _: *mut $t,] [$($passed)* $x,] $($rest)*);
    };
    (@ $name:ident $symbol:ident [$($safe:tt)*] [$($c:tt)*] [$($passed:tt)*] $x:ident: $t:ty, $($rest:tt)*) => {
        native!(@ $name $symbol [$($safe)* $x: $t,] [$($c)* _: $t,] [$($passed)* $x,] $($rest)*);
    };
    ($name:ident = $symbol:ident($($rest:tt)*)) => {
        native!(@ $name $symbol [] [] [] $($rest)*);
    };
}

native!(put = dimetumble_put(
    bound: usize, count: &mut usize, directed: u8, marks: &[u8], from: &mut [u16], to: &mut [u16], costs: &mut [i32],
    a: u16, b: u16, cost: i32,
));

native!(put_f64 = dimetumble_put_f64(
    bound: usize, count: &mut usize, directed: u8, marks: &[u8], from: &mut [u16], to: &mut [u16], bits: &mut [u64], opens: &mut [u8],
    a: u16, b: u16, pattern: u64, opened: u8,
));

native!(dijkstra = dimetumble_dijkstra(
    bound: usize, count: usize, directed: u8, marks: &[u8], from: &[u16], to: &[u16], costs: &[i32], source: usize,
    dist: &mut [i64], offsets: &mut [usize], heads: &mut [u16], weights: &mut [i64],
    preds: &mut [u32], peaks: &mut [usize], words: &mut [usize], keys: &mut [i64],
));

native!(a_star = dimetumble_a_star(
    bound: usize, count: usize, directed: u8, marks: &[u8], from: &[u16], to: &[u16], costs: &[i32], source: usize, target: usize,
    guess: &[i64], cost: &mut i64, length: &mut usize, path: &mut [u32], offsets: &mut [usize], heads: &mut [u16], weights: &mut [i64],
    dist: &mut [i64], preds: &mut [u32], peaks: &mut [usize], words: &mut [usize], keys: &mut [i64],
));

native!(dijkstra_path_impl = dimetumble_dijkstra_path_impl(
    bound: usize, count: usize, directed: u8, marks: &[u8], from: &[u16], to: &[u16], bits: &[u64], opens: &[u8], source: usize,
    capped: u8, cutoff: f64, dist: &mut [f64], preds: &mut [u32], offsets: &mut [usize], heads: &mut [u16], weights: &mut [u64],
    peaks: &mut [usize], words: &mut [usize], keys: &mut [u64],
));

native!(dijkstra_path_f64 = dimetumble_dijkstra_path_f64(
    bound: usize, count: usize, directed: u8, marks: &[u8], from: &[u16], to: &[u16], bits: &[u64], opens: &[u8], source: usize,
    capped: u8, cutoff: f64, dist: &mut [f64], preds: &mut [u32], offsets: &mut [usize], heads: &mut [u16], weights: &mut [u64],
    peaks: &mut [usize], words: &mut [usize], keys: &mut [u64],
));

native!(bellman_ford = dimetumble_bellman_ford(
    bound: usize, count: usize, directed: u8, marks: &[u8], from: &[u16], to: &[u16], costs: &[i32], source: usize,
    dist: &mut [i64], offsets: &mut [usize], heads: &mut [u16], weights: &mut [i64],
    queue: &mut [usize], queued: &mut [usize], lengths: &mut [usize],
));

native!(floyd_warshall = dimetumble_floyd_warshall(
    bound: usize, count: usize, directed: u8, marks: &[u8], from: &[u16], to: &[u16], costs: &[i32],
    matrix: &mut [i64], ranks: &mut [usize],
));

native!(johnson = dimetumble_johnson(
    bound: usize, count: usize, directed: u8, marks: &[u8], from: &[u16], to: &[u16], costs: &[i32],
    matrix: &mut [i64], offsets: &mut [usize], heads: &mut [u16], weights: &mut [i64], heights: &mut [i64],
    dist: &mut [i64], preds: &mut [u32], peaks: &mut [usize], words: &mut [usize], keys: &mut [i64],
));

native!(hops = dimetumble_hops(
    bound: usize, count: usize, directed: u8, marks: &[u8], from: &[u16], to: &[u16], costs: &[i32],
    listed: &mut usize, nodes: &mut [u32], matrix: &mut [u32], offsets: &mut [usize], heads: &mut [u16],
    labels: &mut [usize], queue: &mut [usize],
));

native!(hops_f64 = dimetumble_hops_f64(
    bound: usize, count: usize, directed: u8, marks: &[u8], from: &[u16], to: &[u16], bits: &[u64], opens: &[u8],
    listed: &mut usize, nodes: &mut [u32], matrix: &mut [u32], offsets: &mut [usize], heads: &mut [u16],
    labels: &mut [usize], queue: &mut [usize],
));

native!(page = dimetumble_page(
    bound: usize, count: usize, directed: u8, marks: &[u8], from: &[u16], to: &[u16], costs: &[i32], source: usize,
    page: &[i64], yes: &mut u8,
));
