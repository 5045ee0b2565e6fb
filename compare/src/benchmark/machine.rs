//! What a run was made on and with. Where something cannot be found out, the words say so.

use std::process::Command;

/// Returns the facts of a document's table: a name and what it was. `counted` is where an emulator counted instructions and no processor was
/// measured.
pub fn facts(root: &str, counted: bool) -> Vec<(&'static str, String)> {
    let emulator = || format!("none: {} executes the x86-64 code, on {}", first_line(said("qemu-x86_64", &["--version"])), machine());
    // tools/check_symbols has the archive written where it is not there, so it comes before the size.
    let stack = stack(root);
    let size = size(&format!("{}/target/staticlib/x86_64/liblintelrye_c.a", root));
    let mut facts = vec![
        ("processor", if counted { emulator() } else { format!("{} ({})", processor(), machine()) }),
        ("date", said("date", &["-u", "+%Y-%m-%d"])),
        ("the crate", format!("html-escape 0.3.0, compiled by {} in cargo's release profile with opt-level 3", rustc())),
        ("the library", library(counted || machine() == "x86_64")),
        ("the archive", format!("x86-64 code, which `rt lib` writes in crates/lintelrye_c, by {}; {}; {}", said("rt", &["version"]), size, stack)),
    ];
    if !counted {
        let (go, node) = (said("go", &["version"]), said("node", &["--version"]));
        facts.push(("the others", format!("the package html of {}; the package entities {} of node {}", go, entities(), node)));
    }
    facts
}

/// Returns the version of Debian's node-entities.
fn entities() -> String {
    said("node", &["-p", "require('/usr/share/nodejs/entities/package.json').version"])
}

/// Returns the kind of the machine that runs this, or runs the emulator.
pub fn machine() -> String {
    std::env::var("LINTELRYE_MACHINE").unwrap_or_else(|_| std::env::consts::ARCH.into())
}

/// Returns what of the library was run: the x86-64 archive, or that for this machine's processor.
fn library(x86_64: bool) -> String {
    if x86_64 {
        return "the archive for x86-64".to_string();
    }
    format!("the archive for {} (`tools/archive`): `rt lib` for that target, by the same compiler", machine())
}

/// Returns the model name of the first processor, from /proc/cpuinfo or from `lscpu`.
fn processor() -> String {
    let value = |about: &str, name: &str| -> Option<String> {
        let line = about.lines().find(|line| line.trim_start().to_lowercase().starts_with(name))?;
        Some(line.split(':').nth(1)?.trim().to_string())
    };
    let about = std::fs::read_to_string("/proc/cpuinfo").unwrap_or_default();
    let name = value(&about, "model name").or_else(|| value(&said("lscpu", &[]), "model name"));
    name.unwrap_or_else(|| "a processor that neither /proc/cpuinfo nor lscpu gives a model name of".into())
}

/// Returns the compiler that compare/run uses.
fn rustc() -> String {
    said(&std::env::var("LINTELRYE_RUSTC").unwrap_or_else(|_| "rustc".into()), &["--version"])
}

/// Returns what a program prints, in English.
fn said(program: &str, words: &[&str]) -> String {
    match Command::new(program).args(words).env("LC_ALL", "C").output() {
        Ok(output) if output.status.success() => String::from_utf8_lossy(&output.stdout).trim().to_string(),
        Ok(_) => format!("(`{}` failed)", program),
        Err(_) => format!("(`{}` is not installed here)", program),
    }
}

fn first_line(text: String) -> String {
    text.lines().next().unwrap_or_default().to_string()
}

/// Returns the code and the constants of the archive, by `size -A`, which prints the name and the size of each section.
fn size(archive: &str) -> String {
    let sections = said("size", &["-A", archive]);
    let sum = |kind: &str| -> usize {
        let chosen = sections.lines().filter(|line| line.starts_with(kind));
        chosen.filter_map(|line| line.split_whitespace().nth(1)?.parse::<usize>().ok()).sum()
    };
    match sum(".text") {
        0 => format!("its size was not found out: {}", first_line(sections)),
        code => format!("{} bytes of code (.text) and {} bytes of constants (.rodata)", code, sum(".rodata")),
    }
}

/// Returns the deepest stack of the archive's calls, by `tools/check_symbols`, which prints the bytes and the calls on the way.
fn stack(root: &str) -> String {
    let report = said(&format!("{}/tools/check_symbols", root), &["--target", "x86_64"]);
    let line = report.lines().find_map(|line| line.strip_prefix("deepest stack:"));
    line.and_then(|line| line.split(':').next()).map_or("its deepest stack was not found out".into(), |bytes| format!("deepest stack {}", bytes.trim()))
}
