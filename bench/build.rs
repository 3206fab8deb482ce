//! Links the layer's static library, and the kit's C code that it needs.

fn main() {
    for (variable, library) in [("BENCH_LIBRARY", "arrow2_bench"), ("BENCH_KIT", "libc_c")] {
        println!("cargo:rerun-if-env-changed={variable}");
        let folder = std::env::var(variable).unwrap_or_else(|_| {
            panic!("{variable}: the folder of lib{library}.a, which bench/run sets")
        });
        println!("cargo:rerun-if-changed={folder}/lib{library}.a");
        println!("cargo:rustc-link-search=native={folder}");
        println!("cargo:rustc-link-lib=static={library}");
    }
}
