//! Programs that are linked to the shared library (`STIR_SHARED`) look for it in `../lib` beside
//! their folder first: `host/build` leaves it there.
fn main() {
    println!("cargo:rerun-if-env-changed=STIR_SHARED");
    if std::env::var_os("STIR_SHARED").is_some() {
        println!("cargo:rustc-link-arg-examples=-Wl,-rpath,$ORIGIN/../lib");
    }
}
