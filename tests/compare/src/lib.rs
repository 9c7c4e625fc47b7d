//! A second implementation of the cipher card, of sealed records and of the programs `cardrun` and `sheet`, written
//! from the documents and sharing neither code nor tables with the card's own sources, and what is needed to hold a card
//! and the programs against it: named cases, command lists and files of records from a seed, and subjects that run them.

#![forbid(unsafe_code)]

pub mod aes;
pub mod annex;
pub mod args;
pub mod builder;
pub mod calls;
pub mod cardrun;
pub mod cases;
pub mod changes;
pub mod changing;
pub mod cipher;
pub mod command;
pub mod damage;
pub mod edges;
pub mod faulty;
pub mod field;
pub mod field64;
pub mod fill;
pub mod hex;
pub mod images;
pub mod kcipher2;
pub mod keys;
pub mod ledger;
pub mod line;
pub mod lists;
pub mod loading;
pub mod loads;
pub mod machine;
pub mod mixed;
pub mod mugi;
pub mod named;
pub mod odd;
pub mod parks;
pub mod place;
pub mod plain;
pub mod plan;
pub mod process;
pub mod program;
pub mod rabbit;
pub mod random;
pub mod record;
pub mod report;
pub mod sealing;
pub mod sheet;
pub mod snow2;
pub mod spent;
pub mod subject;
pub mod tables;
pub mod trays;
pub mod words;
#[cfg(test)]
mod wrong;
pub mod zeros;
pub mod zuc;
