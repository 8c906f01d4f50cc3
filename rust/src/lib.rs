//! A second implementation of the plan bytes, of the route planner and of the
//! reason for no route, written from the papers alone, and what is needed to
//! compare the library under test with it.

pub mod asked;
pub mod bench_text;
pub mod clock;
pub mod compare;
pub mod cut_off;
pub mod default_schedule;
pub mod dijkstra;
pub mod events;
pub mod explainers;
pub mod explanation;
pub mod fenced;
pub mod ffi;
pub mod generate;
pub mod guarded;
pub mod input;
pub mod jobs;
pub mod lead;
pub mod numbers;
pub mod planner;
pub mod planners;
pub mod random;
pub mod reason;
pub mod reference;
pub mod refusals;
pub mod run;
pub mod text;
pub mod tool;
pub mod words;
