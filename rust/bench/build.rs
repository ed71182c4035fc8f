//! Notes which compiler builds the benchmark, so that its report can name it, and compiles the peers that are on this machine.

use std::fs;
use std::path::{Path, PathBuf};
use std::process::Command;

/// Where Debian's packages librust-rand-xoshiro-dev and librust-rand-pcg-dev put the sources of crates.
const SOURCES: &str = "/usr/share/cargo/registry";

/// The peers of the rand family; the others stand on the first.
const RAND: [&str; 3] = ["rand_core", "rand_xoshiro", "rand_pcg"];

fn main() {
    println!("cargo::rerun-if-changed=build.rs");
    println!("cargo::rerun-if-changed=src/peers.cpp");
    println!("cargo::rustc-check-cfg=cfg(peer_mt19937, peer_pcg, peer_rand)");
    let rustc = std::env::var("RUSTC").unwrap_or_else(|_| "rustc".to_string());
    let folder = PathBuf::from(std::env::var_os("OUT_DIR").expect("cargo names a folder"));
    let version = first_line(&rustc).unwrap_or_else(|| "rustc of unknown version".to_string());
    println!("cargo::rustc-env=BENCH_RUSTC={version}");
    println!("cargo::rustc-env=BENCH_PEERS={}; {}", peers(&folder), rand_peers(&rustc, &folder));
}

/// The first line of what the compiler says of itself, if it is on this machine.
fn first_line(compiler: &str) -> Option<String> {
    let output = Command::new(compiler).arg("--version").output().ok()?;
    String::from_utf8_lossy(&output.stdout).lines().next().map(str::to_string)
}

/// Compiles and links the peers in C++, and says which.
fn peers(folder: &Path) -> String {
    let Some(compiler) = first_line("g++") else { return "those in C++ left out: g++ is not on this machine".to_string() };
    let with_pcg = compiled(folder, &["-DWITH_PCG"]);
    if !with_pcg && !compiled(folder, &[]) {
        return format!("those in C++ left out: {compiler} does not compile them");
    }
    println!("cargo::rustc-link-search=native={}", folder.display());
    println!("cargo::rustc-link-lib=static=peers");
    println!("cargo::rustc-cfg=peer_mt19937");
    if with_pcg {
        println!("cargo::rustc-cfg=peer_pcg");
        // Its header includes the streams of C++, which are not in a header alone.
        println!("cargo::rustc-link-lib=stdc++");
        return format!("std::mt19937, pcg32 and pcg64 of pcg-cpp, by {compiler} at -O3");
    }
    format!("std::mt19937 by {compiler} at -O3; pcg-cpp left out: its header (Debian's package libpcg-cpp-dev) is not on this machine")
}

/// Whether the peers in C++ were compiled to an archive in this folder.
fn compiled(folder: &Path, flags: &[&str]) -> bool {
    let object = folder.join("peers.o");
    let mut compile = Command::new("g++");
    compile.args(["-std=c++17", "-O3", "-Wall", "-Wextra", "-c", "src/peers.cpp", "-o"]).arg(&object).args(flags);
    let mut archive = Command::new("ar");
    archive.arg("crs").arg(folder.join("libpeers.a")).arg(&object);
    [compile, archive].iter_mut().all(succeeds)
}

/// Compiles the peers of the rand family for this program to use, and says which.
fn rand_peers(rustc: &str, folder: &Path) -> String {
    let Some(sources) = RAND.iter().map(|name| source(name)).collect::<Option<Vec<_>>>() else {
        return "rand_xoshiro and rand_pcg left out: Debian's packages librust-rand-xoshiro-dev and librust-rand-pcg-dev are not on this \
                machine"
            .to_string();
    };
    let made = RAND.iter().zip(&sources).all(|(name, source)| succeeds(&mut library(rustc, folder, name, source)));
    if !made {
        return "rand_xoshiro and rand_pcg left out: rustc does not compile them".to_string();
    }
    println!("cargo::rustc-link-search={}", folder.display());
    println!("cargo::rustc-cfg=peer_rand");
    let names: Vec<_> = sources[1..].iter().filter_map(|path| path.file_name()?.to_str()).collect();
    names.join(", ")
}

/// The folder of a crate's source, which its name and version name.
fn source(name: &str) -> Option<PathBuf> {
    let is_version = |path: &PathBuf| {
        let version = path.file_name().and_then(|file| file.to_str()?.strip_prefix(name)?.strip_prefix('-'));
        version.is_some_and(|version| version.starts_with(|digit: char| digit.is_ascii_digit()))
    };
    fs::read_dir(SOURCES).ok()?.filter_map(|entry| Some(entry.ok()?.path())).find(is_version)
}

/// The command that compiles such a crate as this program is compiled.
fn library(rustc: &str, folder: &Path, name: &str, source: &Path) -> Command {
    let mut command = Command::new(rustc);
    command.args(["--edition", "2018", "--crate-type", "rlib", "-C", "opt-level=3", "--cap-lints", "allow", "--crate-name", name]);
    if let Some(target) = std::env::var_os("TARGET") {
        command.arg("--target").arg(target);
    }
    if name != RAND[0] {
        let below = RAND[0];
        command.arg("--extern").arg(format!("{below}={}", folder.join(format!("lib{below}.rlib")).display()));
    }
    command.arg("--out-dir").arg(folder).arg(source.join("src/lib.rs"));
    command
}

fn succeeds(command: &mut Command) -> bool {
    command.output().is_ok_and(|done| done.status.success())
}
