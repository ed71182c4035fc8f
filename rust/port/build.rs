//! Has the exports of the generators and of the loops, over a lent generator and by value, proved, compiled and linked.

fn main() {
    archive::link("bench_ffi");
    archive::link("bench_lent");
    archive::link("bench_values");
}
