//! A differential test of the C library behind `include/crudvim.h`.
//!
//! `oracle` is a second implementation of the rules, written from the documents alone. `generate` makes inputs, `call` names one
//! call of one entry and what the oracle says of it, `entries` makes the same call through C, and `run` compares the two. `texts`
//! does it for many short texts.

pub mod call;
#[cfg(crudvim_archive)]
pub mod entries;
pub mod generate;
pub mod oracle;
pub mod rng;
#[cfg(crudvim_archive)]
pub mod run;
#[cfg(crudvim_archive)]
pub mod texts;

#[cfg(test)]
mod tests;
