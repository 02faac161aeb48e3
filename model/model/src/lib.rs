//! A plain model of the planner, to be believed by reading it beside document 01.
//!
//! It is written from document 01, from F-1, F-2, F-5 and F-6 of document 02 and from sections 4 and 5 of the paper
//! (000, ConGolog), and shares neither code nor algorithm with the verified code. Whoever wrote the rule of F-2 had
//! read that code; what stands here is the request's sentence, over all pairs of effects. Whoever wrote the sets of F-5
//! had read its definitions; here formulas are walked downwards, where the verified code fills a table upwards. F-6 was
//! written before the verified code had it, by one who knew that it was to carry a pair of values beside each record;
//! here a chosen value is put into the program's acts and conditions. The model prefers the shortest statement to the
//! fastest one: a checked sheet is decoded into plain records, a program is a tree, and a verdict and the first plan
//! are read off the sets of configurations that can be reached in exactly 0, 1, 2, .. transitions.
//!
//! What need not be believed stands elsewhere: sheets to try it with in the package `sheets`, the verified library
//! and its comparison with this model in `library`.

#![forbid(unsafe_code)]

pub mod meaning;
mod names;
pub mod planner;
pub mod program;
pub mod refusal;
pub mod sheet;
