// With the feature `engine`, links the archives in the folder that TIMED_ARCHIVES names.
fn main() {
    println!("cargo:rerun-if-env-changed=TIMED_ARCHIVES");
    if std::env::var_os("CARGO_FEATURE_ENGINE").is_none() {
        return;
    }
    let folder = std::env::var("TIMED_ARCHIVES").expect("TIMED_ARCHIVES: perf/run sets it");
    println!("cargo:rustc-link-search=native={folder}");
    for name in ["timed_calls", "timed_run"] {
        println!("cargo:rerun-if-changed={folder}/lib{name}.a");
        println!("cargo:rustc-link-lib=static={name}");
    }
}
