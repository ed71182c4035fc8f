//! include/vrd.h, compiled without a warning: examples/c/jetty.c, and every call once, from C and from C++, answer what this crate does.

use std::fmt::Write;
use std::path::{Path, PathBuf};
use std::process::{Command, Output};
use std::sync::LazyLock;
use vrd::{Drawn, Random, Refusal};

/// The budget of both programs.
const BUDGET: u32 = 100;

/// Warnings are errors.
const FLAGS: [&str; 4] = ["-Wall", "-Wextra", "-Wpedantic", "-Werror"];

const C: [&str; 2] = ["cc", "-std=c11"];
const CPP: [&str; 4] = ["g++", "-std=c++11", "-x", "c++"];

/// The example, compiled once.
static JETTY: LazyLock<PathBuf> = LazyLock::new(|| compiled(&C, "examples/c/jetty.c"));

/// A file of the repository, compiled against the archive that this crate links.
fn compiled(compiler: &[&str], source: &str) -> PathBuf {
    let root = Path::new(env!("CARGO_MANIFEST_DIR")).join("../..");
    let program = Path::new(env!("CARGO_TARGET_TMPDIR")).join(format!("{}-{}", source.replace('/', "-"), compiler[0]));
    let object = program.with_extension("o");
    let run = |command: &mut Command| {
        let done = command.output().unwrap_or_else(|e| panic!("the compiler {} cannot be started: {e}", compiler[0]));
        assert!(done.status.success(), "{}: {}", compiler[0], String::from_utf8_lossy(&done.stderr));
    };
    let mut command = Command::new(compiler[0]);
    run(command
        .args(&compiler[1..])
        .args(FLAGS)
        .arg("-I")
        .arg(root.join("include"))
        .arg("-c")
        .arg(root.join(source))
        .arg("-o")
        .arg(&object));
    run(Command::new(compiler[0]).arg(&object).arg(concat!(env!("OUT_DIR"), "/libvrd_ffi.a")).arg("-o").arg(&program));
    program
}

fn run(program: &Path, arguments: &[&str]) -> Output {
    Command::new(program).args(arguments).output().expect("the program starts")
}

/// What a program printed that ended well.
fn printed(program: &Path, arguments: &[&str]) -> String {
    let run = run(program, arguments);
    assert!(run.status.success(), "{} ends with {}", program.display(), run.status);
    String::from_utf8(run.stdout).expect("the program prints text")
}

/// The number that C sees.
fn refusal<T>(answer: &Result<T, Refusal>) -> u32 {
    answer.as_ref().err().map_or(0, |refusal| refusal.number())
}

#[test]
fn the_c_example_prints_what_this_crate_answers() {
    for seed in [0, 1, 42, u32::MAX] {
        let found = printed(&JETTY, &[&seed.to_string()]);
        assert_eq!(found, jetty(seed).expect("no draw of the example is refused"), "seed {seed}");
    }
    assert_eq!(printed(&JETTY, &[]), printed(&JETTY, &["42"]));
}

#[test]
fn the_c_example_refuses_what_is_no_seed() {
    for arguments in
        [&["abc"][..], &[""], &["-1"], &[" 1"], &["1 "], &["1.5"], &["0x10"], &["4294967296"], &["99999999999999999999999"], &["1", "2"]]
    {
        let run = run(&JETTY, arguments);
        assert_eq!((run.status.code(), run.stdout.is_empty(), run.stderr.is_empty()), (Some(2), true, false), "{arguments:?}");
    }
}

#[test]
fn every_call_from_c_and_cpp_answers_what_this_crate_does() {
    let expected = every_call();
    for compiler in [&C[..], &CPP] {
        assert_eq!(printed(&compiled(compiler, "rust/vrd/tests/calls.c"), &[]), expected, "{}", compiler[0]);
    }
}

/// The example's lines, by this crate's calls.
fn jetty(seed: u32) -> Result<String, Refusal> {
    let units = [
        ("Xoshiro256++", Random::from_u64_seed(seed.into())),
        ("Mersenne Twister", Random::new_mersenne_twister_with_seed(seed)),
        ("Pcg32", Random::new_pcg32_with_seed(seed.into())),
        ("Pcg64", Random::new_pcg64_with_seed(seed.into())),
    ];
    let mut text = String::new();
    for (name, mut unit) in units {
        text += &format!("{name}\n");
        for opening in 1..=3 {
            let drawn = unit.bounded(40, BUDGET)?;
            text += &format!("  opening {opening}: refusal 0, inlet {}, words {}\n", drawn.value, drawn.used);
        }
        text += &blanks(&mut unit)?;
        text += &others(&mut unit)?;
        let (below, split) = (refusal(&unit.bounded(0, BUDGET)), refusal(&unit.split()));
        text += &format!("  below 0: refusal {below}; split: refusal {split}\n");
    }
    Ok(text)
}

fn blanks(unit: &mut Random) -> Result<String, Refusal> {
    let mut bottles: Vec<u32> = (1..=10).collect();
    let refused = refusal(&unit.shuffle(&mut bottles, 8));
    let mut text = format!("  shuffle with 8 words: refusal {refused}, first bottle {}\n", bottles[0]);
    let used = unit.shuffle(&mut bottles, BUDGET)?.used;
    let listed: String = bottles.iter().map(|bottle| format!(" {bottle}")).collect();
    text += &format!("  shuffle: refusal 0, words {used}, bottles{listed}\n");
    let part = unit.rand_slice(&bottles, 3, BUDGET)?.value;
    let start = bottles.iter().position(|bottle| *bottle == part[0]).expect("the part is of the list");
    let one = unit.choose(&bottles, BUDGET)?.value;
    text += &format!("  blanks from place {start}, spare bottle {} at place {}\n", one.number, one.place);
    Ok(text)
}

fn others(unit: &mut Random) -> Result<String, Refusal> {
    let (drift, letter) = (unit.int(-5, 5, BUDGET)?.value, unit.char(BUDGET)?.value);
    let blank = if unit.bool(0.25)?.value { "yes" } else { "no" };
    let wait = unit.uniform(1.5, 60.0)?;
    let mut bytes = [0; 5];
    unit.fill_bytes(&mut bytes);
    let listed: String = bytes.iter().map(|byte| format!(" {byte:02x}")).collect();
    Ok(format!("  drift {drift}, letter {letter}, blank {blank}, wait {wait:.17}\n  bytes{listed}, then {:016x}\n", unit.u64()))
}

/// The lines of tests/calls.c, by this crate's calls.
fn every_call() -> String {
    let bytes: Vec<u8> = (0..32).map(|i| 7 * i).collect();
    let (seed, stream) = ((1 << 64) + 2, (3 << 64) + 4);
    let makers = [
        Random::from_u64_seed(42),
        Random::new_mersenne_twister_with_seed(42),
        Random::new_pcg32_with_seed(42),
        Random::new_pcg64_with_seed(seed),
        Random::new_pcg32_with_stream(42, 54),
        Random::new_pcg64_with_stream(seed, stream),
    ];
    let mut text = Lines(format!("list_limit {}\n", vrd::list_limit()));
    for unit in makers {
        text.every_call(unit);
    }
    let mut last = None;
    for kind in 0..=4 {
        let made = Random::make(kind, &bytes[..if kind == 2 { 16 } else { 32 }]);
        text.line("make", &refusal(&made));
        // A refused maker leaves the generator that was there.
        last = made.ok().or(last);
        text.every_call(last.clone().expect("kind 0 is made"));
    }
    text.line("make", &refusal(&Random::make(0, &bytes[..31])));
    text.line("bounded", &"10 0 0");
    text.0
}

struct Lines(String);

impl Lines {
    fn line(&mut self, name: &str, rest: &dyn std::fmt::Display) {
        writeln!(self.0, "{name} {rest}").expect("a string takes it");
    }

    /// Refusal, value and words used; refused, they are 0.
    fn drawn<T: Default + std::fmt::Display>(&mut self, name: &str, answer: Result<Drawn<T>, Refusal>) {
        let refused = refusal(&answer);
        let Drawn { value, used } = answer.unwrap_or(Drawn { value: T::default(), used: 0 });
        self.line(name, &format!("{refused} {value} {used}"));
    }

    fn every_call(&mut self, mut unit: Random) {
        self.words(&mut unit);
        self.draws(&mut unit);
        self.lists(&mut unit);
        self.floats(&mut unit);
        self.state(unit);
    }

    fn words(&mut self, unit: &mut Random) {
        self.line("rand", &format!("0 {}", unit.rand()));
        self.line("u64", &format!("0 {}", unit.u64()));
        self.line("i64", &unit.i64());
        self.line("pseudo", &format!("0 {}", unit.pseudo()));
        let mut bytes = [0; 3];
        unit.fill_bytes(&mut bytes);
        self.line("fill_bytes", &0);
        self.line("bytes", &format!("{} {} {}", bytes[0], bytes[1], bytes[2]));
    }

    fn draws(&mut self, unit: &mut Random) {
        self.drawn("bounded", unit.bounded(3_000_000_000, BUDGET));
        self.drawn("bounded", unit.bounded(0, BUDGET));
        self.drawn("random_range", unit.random_range(5, 50, BUDGET));
        self.drawn("uint", unit.uint(7, 77, BUDGET));
        self.drawn("int", unit.int(-7, 77, BUDGET));
        self.drawn("range", unit.range(-77, 7, BUDGET));
        for budget in [BUDGET, 0] {
            let letter = unit.char(budget).map(|drawn| Drawn { value: u32::from(drawn.value), used: drawn.used });
            self.drawn("char", letter);
        }
    }

    fn lists(&mut self, unit: &mut Random) {
        let list = [10, 20, 30, 40];
        let chosen = unit.choose(&list, BUDGET).expect("a list with entries is taken");
        self.line("choose", &format!("0 {} {} {}", chosen.value.place, chosen.value.number, chosen.used));
        for window in [2, 5] {
            let start = |part: &[u32]| list.iter().position(|entry| *entry == part[0]).expect("the part is of the list");
            let part = unit.rand_slice(&list, window, BUDGET).map(|drawn| Drawn { value: start(drawn.value), used: drawn.used });
            self.drawn("rand_slice", part);
        }
        let mut order = list;
        for budget in [2, BUDGET] {
            let ordered = unit.shuffle(&mut order, budget).map(|drawn| Drawn { value: 0, used: drawn.used });
            self.drawn("shuffle", ordered);
        }
        self.line("order", &format!("{} {} {} {}", order[0], order[1], order[2], order[3]));
    }

    fn floats(&mut self, unit: &mut Random) {
        self.line("float", &format!("0 {:08x}", unit.float().to_bits()));
        self.line("double", &format!("0 {:016x}", unit.double().to_bits()));
        self.drawn("bool", unit.bool(0.5).map(|drawn| Drawn { value: u8::from(drawn.value), used: drawn.used }));
        self.line("bool", &refusal(&unit.bool(1.5)));
        for (low, high) in [(-1.5, 60.0), (1.0, 1.0)] {
            let drawn = unit.uniform(low, high);
            self.line("uniform", &format!("{} {:016x}", refusal(&drawn), drawn.unwrap_or(0.0).to_bits()));
        }
    }

    fn state(&mut self, mut unit: Random) {
        let copy = unit.clone();
        self.line("same", &format!("0 {}", u8::from(unit == copy)));
        let child = unit.split();
        self.line("split", &refusal(&child));
        self.line("same", &u8::from(unit == child.unwrap_or(copy)));
        unit.seed(7);
        self.line("seed", &0);
        unit.twist();
        self.line("twist", &0);
        self.line("mti", &format!("0 {}", unit.mti()));
        unit.set_mti(1_000);
        self.line("set_mti", &0);
        self.line("mti", &format!("0 {}", unit.mti()));
        self.line("rand", &format!("0 {}", unit.rand()));
    }
}
