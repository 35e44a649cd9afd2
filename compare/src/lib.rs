//! A second reader for CTF 2 data streams, and what is needed to compare
//! another reader with it.

pub mod apart;
pub mod bits;
pub mod bundle;
pub mod bundle_trial;
pub mod case;
pub mod class;
pub mod corners;
pub mod damage;
pub mod demand;
pub mod edges;
pub mod elements;
pub mod encode;
pub mod generate;
pub mod homes;
pub mod make_bundle;
pub mod make_table;
pub mod program;
pub mod random;
pub mod reader;
pub mod records;
pub mod shrink;
pub mod table;
pub mod text;
pub mod trial;
