// Links the unit's static library, and the C library's heap under it.
fn main() {
    for (place, name) in [("UNIT_LIB", "unit"), ("HEAP_LIB", "libc_c")] {
        println!("cargo::rerun-if-env-changed={place}");
        let folder = std::env::var(place).expect("bench/run names the folders of the libraries");
        println!("cargo::rerun-if-changed={folder}/lib{name}.a");
        println!("cargo::rustc-link-search=native={folder}");
        println!("cargo::rustc-link-lib=static={name}");
    }
}
