//! Has the exports of the facade proved, compiled and linked.

fn main() {
    archive::link("vrd_ffi");
}
