//! An independent second program for the rules of Olivastrum, written from the rules alone.

pub mod check;
pub mod commands;
pub mod compose;
pub mod differences;
pub mod explain;
pub mod frames;
pub mod gen;
pub mod hopper;
pub mod inspect;
pub mod lines;
pub mod local;
pub mod log;
pub mod notation;
pub mod page;
pub mod planner;
pub mod planted;
pub mod raising;
pub mod ring;
pub mod rules;
pub mod sheet;
pub mod state;
pub mod store;
pub mod streams;
pub mod text;
pub mod tune;
pub mod waits;
