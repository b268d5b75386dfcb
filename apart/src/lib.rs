//! A second request desk and its replay program, written from the specification alone.
//!
//! The specification is document 01. The desk ([`desk`]) knows nothing of text; the replay
//! ([`replay`], [`record`], [`answer`], [`stream`]) knows nothing of the desk's inside; the
//! generator of logs ([`generate`]) drives a replay of its own to reach deep states.

#![forbid(unsafe_code)]

pub mod answer;
pub mod block;
pub mod desk;
pub mod ending;
pub mod generate;
pub mod ids;
pub mod reach;
pub mod record;
pub mod refusal;
pub mod replay;
pub mod rng;
pub mod stream;
