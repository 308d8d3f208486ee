// Links the product's static library. JOB_ORDER_LIB names its folder; default: the folder where rt lib leaves it.
use std::{env, path::PathBuf};

fn main() {
    println!("cargo:rerun-if-env-changed=JOB_ORDER_LIB");
    let folder = match env::var_os("JOB_ORDER_LIB") {
        Some(folder) => PathBuf::from(folder),
        None => PathBuf::from(env::var_os("CARGO_MANIFEST_DIR").unwrap()).join("../crates/job_order/out"),
    };
    let library = folder.join("libjob_order.a");
    println!("cargo:rerun-if-changed={}", library.display());
    if library.exists() {
        println!("cargo:rustc-cfg=product");
        println!("cargo:rustc-link-search=native={}", folder.display());
        println!("cargo:rustc-link-lib=static=job_order");
    } else {
        println!("cargo:warning=no {}: only the plain side is built", library.display());
    }
}
