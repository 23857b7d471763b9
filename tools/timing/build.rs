// The archive of the crate `native`, made by `rt lib` in its folder; with BEFORE_DIR that of an earlier commit, with MODEL_DIR that
// of the model too.
fn also(folder: &str, archive: &str, cfg: &str) {
    println!("cargo:rerun-if-env-changed={}", folder);
    println!("cargo:rustc-check-cfg=cfg({})", cfg);
    if let Ok(at) = std::env::var(folder) {
        println!("cargo:rustc-link-search=native={}", at);
        println!("cargo:rustc-link-lib=static={}", archive);
        println!("cargo:rerun-if-changed={}/lib{}.a", at, archive);
        println!("cargo:rustc-cfg={}", cfg);
    }
}

fn main() {
    let ours = std::env::var("NATIVE_DIR").expect("NATIVE_DIR: the folder of libnative.a");
    println!("cargo:rustc-link-search=native={}", ours);
    println!("cargo:rustc-link-lib=static=native");
    println!("cargo:rerun-if-changed={}/libnative.a", ours);
    println!("cargo:rerun-if-env-changed=NATIVE_DIR");
    also("BEFORE_DIR", "before", "before");
    also("MODEL_DIR", "mc", "model");
}
