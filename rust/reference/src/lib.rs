//! A plain reference for typed map graphs (typed feature structures) and their
//! operations: order (subsumption), common part (generalization), combination
//! (unification) and difference, on bytes. It is written from document 01 and the change
//! requests alone, sentence by sentence. It is written to be read first and to be fast
//! second. Tests compare the proved engine with it on many inputs.

#![forbid(unsafe_code)]
#![warn(missing_docs)]

pub mod appropriateness;
pub mod calls;
pub mod canonical;
pub mod difference;
pub mod gathering;
pub mod generalize;
pub mod graph;
pub mod house;
pub mod label;
pub mod link_order;
pub mod listing;
pub mod mapcalc;
pub mod notation;
pub mod order;
pub mod paths;
pub mod random;
pub mod reader;
pub mod record;
pub mod reply;
pub mod rows;
pub mod store;
pub mod table;
pub mod unify;
