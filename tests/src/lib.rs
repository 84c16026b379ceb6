//! Tests of the patch library from outside, through its C boundary.
//!
//! `law` is a plain reference written from the rules of docs/SPECIFICATION.md. `interval` finds the
//! best triangulation of larger polygons in another way. `fast` uses the library's own method, for
//! the benchmark. `library` calls the library itself.

#![forbid(unsafe_code)]

pub mod calls;
pub mod closing;
pub mod comparison;
pub mod crossings;
pub mod damage;
pub mod damaged_jobs;
pub mod fast;
pub mod interval;
pub mod jobs;
pub mod law;
pub mod library;
pub mod meetings;
pub mod normals;
pub mod patches;
pub mod planes;
pub mod prices;
pub mod programs;
pub mod random;
pub mod rims;
pub mod told;
