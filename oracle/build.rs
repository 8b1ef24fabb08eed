//! Hands the place of the Rust module, which ./build gives as FEE_ESTIMATOR, on to the compiler.

use std::env;

fn main() {
    println!("cargo:rerun-if-env-changed=FEE_ESTIMATOR");
    let module = env::var("FEE_ESTIMATOR").expect("FEE_ESTIMATOR: the whole path of fee_estimator.rs");
    println!("cargo:rerun-if-changed={module}");
    println!("cargo:rustc-env=FEE_ESTIMATOR={module}");
}
