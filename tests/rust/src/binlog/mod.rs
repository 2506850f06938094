//! Stands in for the original's src/binlog/mod.rs: those of its modules that are here.

pub mod decimal;
pub mod jsonb;
pub mod jsondiff;
pub mod misc;
pub mod time;
