//! Tells the compiler where the Rust module lies: FEE_ESTIMATOR, or its place in the shared documents beside the repository.

use std::path::PathBuf;
use std::{env, fs};

const BESIDE_THE_REPOSITORY: &str = "../../../../shared/docs/src/crates/mempool/src/fee_estimator.rs";

fn main() {
    println!("cargo:rerun-if-env-changed=FEE_ESTIMATOR");
    let module = env::var_os("FEE_ESTIMATOR").map_or_else(|| PathBuf::from(BESIDE_THE_REPOSITORY), PathBuf::from);
    let module = fs::canonicalize(&module).unwrap_or_else(|error| panic!("FEE_ESTIMATOR: {}: {error}", module.display()));
    println!("cargo:rerun-if-changed={}", module.display());
    println!("cargo:rustc-env=FEE_ESTIMATOR={}", module.display());
}
