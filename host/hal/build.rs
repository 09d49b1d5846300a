//! Compiles the unchanged sources once for each variant: two or three PLLs, and each combination of odd P allowed. They say
//! `crate::…`, so each variant is a crate: a scratch folder under the target folder with the sources as they are beside our
//! root, and a call of rustc. In a combination other than the sources' own, the literals of `pll_setup!` are changed in the
//! scratch copy, and nothing else.
use std::env;
use std::fmt::Write;
use std::fs;
use std::path::{Path, PathBuf};
use std::process::{exit, Command};

const SOURCES: [&str; 6] = ["rcc.rs", "pwr.rs", "rcc/pll.rs", "rcc/mco.rs", "rcc/core_clocks.rs", "rcc/reset_reason.rs"];
/// Where odd P is allowed in the sources.
const OWN: [bool; 3] = [false, true, true];

fn main() {
    let out = PathBuf::from(variable("OUT_DIR"));
    let standin = Path::new(&variable("CARGO_MANIFEST_DIR")).join("standin");
    println!("cargo:rerun-if-changed={}", standin.display());
    println!("cargo:rerun-if-env-changed=HAL_SRC");
    println!("cargo:rustc-link-search=all={}", out.display());

    let rustc = Rustc { out: &out };
    rustc.run("paste", &standin.join("paste.rs"), &["--crate-type=proc-macro", "--extern=proc_macro"]);
    rustc.library("standin", &standin.join("lib.rs"), &[]);
    rustc.library("standin_quiet", &standin.join("lib.rs"), &["--cfg=quiet"]);

    let mut table = String::from("extern crate standin;\n");
    let mut rows = String::new();
    let mut quiet = String::new();
    let said = env::var_os("HAL_SRC").map(PathBuf::from);
    let beside = || Path::new(&variable("CARGO_MANIFEST_DIR")).join("../../../shared/docs/src");
    let folder = said.clone().unwrap_or_else(beside);
    let there = said.is_some() || folder.exists();
    let why = match sources(&folder) {
        Err(why) => {
            println!("cargo:warning=nothing to compare with: {why}");
            // a file that is never there: the sources are looked for again each time
            println!("cargo:rerun-if-changed={}", out.join("none").display());
            why
        }
        Ok(source) => {
            for file in SOURCES {
                println!("cargo:rerun-if-changed={}", source.join(file).display());
            }
            for variant in variants() {
                let name = rustc.variant(&source, &standin, &variant, true);
                writeln!(table, "extern crate {name};").unwrap();
                writeln!(rows, "{}", variant.row(&name)).unwrap();
            }
            for plls in [2, 3] {
                let name = rustc.variant(&source, &standin, &Variant { plls, odd: OWN }, false);
                writeln!(table, "extern crate {name};").unwrap();
                writeln!(quiet, "Quiet {{ plls: {plls}, time_freeze: {name}::time_freeze }},").unwrap();
            }
            format!("compiled unchanged from {}", source.display())
        }
    };
    writeln!(table, "/// The variants; none without the sources.\npub static VARIANTS: &[Variant] = &[\n{rows}];").unwrap();
    writeln!(table, "/// Over the stand-in that keeps no record.\npub static QUIET: &[Quiet] = &[\n{quiet}];").unwrap();
    writeln!(table, "/// Where the sources are, or why there is no variant.\npub const SOURCES: &str = {why:?};").unwrap();
    writeln!(table, "/// Whether the sources' folder is there, or HAL_SRC names one: then a run without variants has failed.").unwrap();
    writeln!(table, "pub const THERE: bool = {there};").unwrap();
    write(&out.join("variants.rs"), &table);
}

/// The folder with rcc.rs, this one or its src; or why there are no sources to compile.
fn sources(folder: &Path) -> Result<PathBuf, String> {
    let found = [folder.to_path_buf(), folder.join("src")];
    let source = found.iter().find(|at| SOURCES.iter().all(|file| at.join(file).is_file()));
    let none = if folder.exists() { "not all HAL sources" } else { "no HAL sources" };
    let source = source.ok_or_else(|| format!("{none} at {} (HAL_SRC says where)", folder.display()))?;
    match minor_version() {
        Some(minor) if minor >= 73 => source.canonicalize().map_err(|error| error.to_string()),
        _ => Err("the HAL sources need rustc 1.73 (u32::div_ceil)".into()),
    }
}

fn minor_version() -> Option<u32> {
    let output = Command::new(variable("RUSTC")).arg("--version").output().ok()?;
    String::from_utf8(output.stdout).ok()?.split('.').nth(1)?.parse().ok()
}

struct Variant {
    plls: usize,
    odd: [bool; 3],
}

/// Two PLLs: the third permission has no use, and stays as it is.
fn variants() -> Vec<Variant> {
    let bit = |bits: usize, k: usize| bits >> k & 1 == 1;
    let two = (0..4).map(|bits| Variant { plls: 2, odd: [bit(bits, 0), bit(bits, 1), OWN[2]] });
    let three = (0..8).map(|bits| Variant { plls: 3, odd: [bit(bits, 0), bit(bits, 1), bit(bits, 2)] });
    two.chain(three).collect()
}

impl Variant {
    fn name(&self) -> String {
        let odd: String = self.odd[..self.plls].iter().map(|odd| if *odd { '1' } else { '0' }).collect();
        format!("hal{}_odd{odd}", self.plls)
    }

    fn row(&self, name: &str) -> String {
        let Variant { plls, odd } = self;
        let calls = ["freeze", "voltage", "reset_reason"].map(|call| format!("{call}: {name}::{call}")).join(", ");
        format!("Variant {{ plls: {plls}, odd: {odd:?}, {calls} }},")
    }

    /// A source file for this variant: as it is, but for the literals of another combination.
    fn text(&self, file: &str, text: String) -> String {
        if file != "rcc/pll.rs" {
            return text;
        }
        (0..self.plls).filter(|k| self.odd[*k] != OWN[*k]).fold(text, |text, k| {
            let call = |odd: bool| format!("pll_setup! {{pll{}, {odd}}}", k + 1);
            assert_eq!(text.matches(&call(OWN[k])).count(), 1, "pll.rs has one {}", call(OWN[k]));
            text.replace(&call(OWN[k]), &call(self.odd[k]))
        })
    }
}

struct Rustc<'a> {
    out: &'a Path,
}

impl Rustc<'_> {
    fn run(&self, name: &str, root: &Path, arguments: &[&str]) {
        let mut command = Command::new(variable("RUSTC"));
        command.args(["--edition=2021", "--cap-lints=allow", "--crate-name", name]).arg(root).arg("--out-dir").arg(self.out);
        command.arg("-L").arg(self.out).args(arguments);
        let status = command.status().unwrap_or_else(|error| stop(&format!("rustc: {error}")));
        if !status.success() {
            stop(&format!("{name} does not compile"));
        }
    }

    fn library(&self, name: &str, root: &Path, arguments: &[&str]) {
        let paste = format!("--extern=paste={}", self.out.join(proc_macro("paste")).display());
        let all = ["--crate-type=rlib", "-Copt-level=3", "-Coverflow-checks=on", &paste];
        self.run(name, root, &[&all, arguments].concat());
    }

    /// Writes the scratch folder of a variant and compiles it; its crate's name.
    fn variant(&self, source: &Path, standin: &Path, variant: &Variant, recording: bool) -> String {
        let name = variant.name() + if recording { "" } else { "_quiet" };
        let folder = self.out.join(&name);
        fs::create_dir_all(folder.join("rcc")).unwrap_or_else(|error| stop(&error.to_string()));
        write(&folder.join("lib.rs"), &read(&standin.join("root.rs")));
        write(&folder.join("rcc/rec.rs"), &read(&standin.join("rec.rs")));
        for file in SOURCES {
            write(&folder.join(file), &variant.text(file, read(&source.join(file))));
        }
        let manual = if variant.plls == 2 { "rm0492" } else { "rm0481" };
        let registers = if recording { "libstandin.rlib" } else { "libstandin_quiet.rlib" };
        let registers = format!("--extern=standin={}", self.out.join(registers).display());
        self.library(&name, &folder.join("lib.rs"), &["--cfg", &format!("feature=\"{manual}\""), &registers]);
        name
    }
}

fn proc_macro(name: &str) -> String {
    format!("{}{name}{}", env::consts::DLL_PREFIX, env::consts::DLL_SUFFIX)
}

fn read(path: &Path) -> String {
    fs::read_to_string(path).unwrap_or_else(|error| stop(&format!("{}: {error}", path.display())))
}

fn write(path: &Path, text: &str) {
    fs::write(path, text).unwrap_or_else(|error| stop(&format!("{}: {error}", path.display())))
}

fn variable(name: &str) -> String {
    env::var(name).unwrap_or_else(|_| stop(&format!("cargo sets {name}")))
}

fn stop(why: &str) -> ! {
    eprintln!("{why}");
    exit(1)
}
