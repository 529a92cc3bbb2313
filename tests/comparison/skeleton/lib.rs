//! The part of market-maker-rs that `micro_price.rs` needs.
#![allow(dead_code)]

pub use rust_decimal::Decimal;

pub mod analytics {
    pub mod micro_price;
}
pub mod strategy {
    pub mod walk_forward;
}
pub mod types {
    pub mod action;
    pub mod decimal;
    pub mod error;
}
