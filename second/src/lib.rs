//! A second profiler, written from the rules of the project alone and by pairs of lines, to compare the proved one with.
//!
//! It shares no code and no way of working with the proved library. Where the rules give a definition, this program
//! follows its words: an invocation is an interval of lines, two cost lines are compared by the definition of parallel,
//! and the chosen chain is searched for over that relation ([`chain`]). Traces that are too long for pairs go a second
//! way, the heaviest path of a graph ([`graph`]), which the tests hold equal to the first.
//!
//! Quoted phrases in the comments are those of the rules.

#![deny(unsafe_code)]

pub mod bench;
pub mod chain;
pub mod check;
pub mod compact;
pub mod compare;
pub mod folded;
pub mod forecast;
pub mod graph;
pub mod heaviest;
pub mod library;
pub mod line;
pub mod plain;
pub mod program;
pub mod refusal;
pub mod report;
pub mod rows;
pub mod shape;
pub mod sheet;
#[cfg(nyolifuwe)]
pub mod sys;
pub mod trace;
pub mod why;
