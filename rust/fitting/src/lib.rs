//! The tool `fitting` shows records as text and as pictures, for a person at a desk. A command
//! reads a type table and records or texts, asks the engine (`record_engine`), and tells what
//! the engine answers. Every result comes from the engine. This package computes only what a
//! message or a picture tells in addition.

#![forbid(unsafe_code)]

mod checksum;
mod command;
mod draw;
mod engine;
mod explain;
mod failure;
pub mod graph;
mod help;
mod input;
mod json;
mod names;
pub mod notation;
mod output;
mod overlay;
mod patient;
mod picture;
pub mod planning;
mod progress;
mod reading;
mod report;
mod source;
pub mod table;
mod why;

pub use command::run;
