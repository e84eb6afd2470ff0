//! A second, independent model of the AXI to PCI Express root port bridge,
//! written from the sentences of documents 01 and 02 ("01" and "02" in the
//! comments).
#![forbid(unsafe_code)]

pub mod answer;
pub mod bridge;
pub mod burst;
pub mod capture;
pub mod cover;
pub mod demand3;
pub mod generate;
pub mod header;
pub mod run;
pub mod say;
pub mod settings;
pub mod shrink;
pub mod traffic;
