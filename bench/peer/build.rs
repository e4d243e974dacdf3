// Links the static library of the crate `bench_calls`, whose folder is given by the environment.
fn main() {
    let folder = std::env::var("BENCH_CALLS").expect("BENCH_CALLS: the folder with libbench_calls.a");
    println!("cargo:rustc-link-search=native={folder}");
    println!("cargo:rustc-link-lib=static=bench_calls");
    if let Ok(more) = std::env::var("BENCH_MORE") {
        for path in more.split(':') {
            println!("cargo:rustc-link-arg={path}");
        }
    }
    println!("cargo:rerun-if-env-changed=BENCH_CALLS");
}
