#[path = "../find_original.rs"]
mod find_original;

fn main() {
    println!("cargo:rerun-if-changed=../find_original.rs");
    find_original::write_modules("ytsaurus-yson", "../../..", &["node"]);
}
