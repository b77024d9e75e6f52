//! What the proved library is measured against: a marker and planners by document 01 with Orders 1, 4, 5, 6, 8 and 9, in safe Rust and
//! written for speed. The marker finds the peaks and the first instant over a limit from sorted changes. The planners keep a staircase
//! for each memory.

mod changes;
mod graph;
pub mod marker;
mod paper;
pub mod planner;
mod rounds;
mod sheet;
mod staircase;
mod text;
mod timetable;
