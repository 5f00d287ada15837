//! Chooses where the calls come from: the assembly of dist/, which src/shipped.rs passes to rustc's own assembler, or a library that tools/archive proves and
//! compiles.
//!
//! By default the assembly is used, unless the Rattle sources beside it differ from those that it was made from. LOAMCHALICE_FROM=source always proves and
//! compiles, LOAMCHALICE_FROM=dist never looks at the sources.
use std::collections::BTreeSet;
use std::fs::{self, OpenOptions};
use std::path::{Path, PathBuf};
use std::process::{exit, Command, Stdio};
use std::{env, io};

fn main() {
    let here = PathBuf::from(variable("CARGO_MANIFEST_DIR"));
    let repository = here.join("../..");
    // Not crates/ itself: rt keeps its work in crates/NAME/out/.
    let crates = fs::read_dir(repository.join("crates")).into_iter().flatten().flatten().map(|entry| entry.path());
    let parts = crates.flat_map(|path| ["proofs", "specs", "src"].map(|part| path.join(part)));
    for watched in [here.join("dist"), repository.join("crates.txt"), repository.join("tools")].into_iter().chain(parts) {
        if watched.exists() {
            println!("cargo:rerun-if-changed={}", watched.display());
        }
    }
    println!("cargo:rerun-if-changed=build.rs");
    println!("cargo:rerun-if-env-changed=LOAMCHALICE_FROM");
    println!("cargo:rustc-check-cfg=cfg(loamchalice_dist)");
    // A published package has no sources.
    let sources = repository.join("tools/archive").exists() && repository.join("crates.txt").exists();
    match env::var("LOAMCHALICE_FROM").as_deref() {
        Ok("source") if !sources => stop("LOAMCHALICE_FROM is source, and there are no Rattle sources here: this is a package, or a part of the repository"),
        Ok("source") => from_source(&repository),
        Ok("dist") => from_dist(),
        Ok(other) => stop(&format!("LOAMCHALICE_FROM is {other}: it can be source or dist")),
        Err(_) if !sources => from_dist(),
        Err(_) => match first_other(&here.join("dist/SOURCES"), &repository) {
            None => from_dist(),
            Some(other) => from_changed_source(&other, &repository),
        },
    }
}

/// Stops with a sentence that says what is wrong, without a panic's lines around it.
fn stop(sentence: &str) -> ! {
    eprintln!("{sentence}");
    exit(1);
}

fn variable(name: &str) -> String {
    env::var(name).unwrap_or_default()
}

fn from_dist() {
    let of = |name: &str| variable(&format!("CARGO_CFG_TARGET_{name}"));
    // The assembly is ELF and passes structs as C does on Linux; Windows and Apple's systems pass them otherwise.
    let system = match of("OS").as_str() {
        "linux" => ["gnu", "musl"].contains(&of("ENV").as_str()),
        "none" => true,
        _ => false,
    };
    let processor = ["aarch64", "x86_64"].contains(&of("ARCH").as_str()) && of("POINTER_WIDTH") == "64" && of("ENDIAN") == "little";
    // Targets without these features pass floats in other registers: x86_64-unknown-none, aarch64-unknown-none-softfloat.
    let floats = of("FEATURE").split(',').any(|feature| feature == "neon" || feature == "sse2");
    if !(system && processor && floats) {
        let target = variable("TARGET");
        stop(&format!(
            "Loamchalice has no assembly for {target}: it has x86_64 and aarch64 Linux, gnu and musl, and bare metal on these with 64-bit pointers and hardware floats"
        ));
    }
    println!("cargo:rustc-cfg=loamchalice_dist");
}

fn from_changed_source(other: &str, repository: &Path) {
    if !on_path("rt") {
        stop(&format!(
            "dist/ was made of other sources than those that stand here ({other}), and the Rattle kit's rt is not on the PATH to prove them: take the change back, or set LOAMCHALICE_FROM=dist"
        ));
    }
    println!("cargo:warning=dist/ was made of other sources than those that stand here ({other}): the library is built from source");
    from_source(repository);
}

fn on_path(program: &str) -> bool {
    env::split_paths(&env::var_os("PATH").unwrap_or_default()).any(|folder| folder.join(program).is_file())
}

fn from_source(repository: &Path) {
    let (target, host) = (variable("TARGET"), variable("HOST"));
    if target != host {
        stop(&format!("tools/archive makes the library for {host} alone, not for {target}"));
    }
    let out = PathBuf::from(variable("OUT_DIR"));
    // Cargo hides what a build script prints, and the proofs take minutes, so progress goes to the terminal, if there is one.
    let told = OpenOptions::new().write(true).open("/dev/tty").map_or(Stdio::inherit(), Stdio::from);
    let made = Command::new(repository.join("tools/archive")).arg(out.join("libloamchalice.a")).stderr(told).status();
    if !made.is_ok_and(|status| status.success()) {
        stop("tools/archive could not prove and compile the library: run `tools/archive target/libloamchalice.a` to see why; it needs the Rattle kit's rt on the PATH");
    }
    println!("cargo:rustc-link-search=native={}", out.display());
    println!("cargo:rustc-link-lib=static=loamchalice");
}

/// The first crate or file of the Rattle sources that differs from dist/SOURCES.
fn first_other(list: &Path, repository: &Path) -> Option<String> {
    let listed = fs::read_to_string(list).unwrap_or_else(|_| stop("there is no dist/SOURCES: make dist/ with tools/dist"));
    let stands = sources(repository).unwrap_or_else(|error| stop(&format!("the Rattle sources can't be read: {error}")));
    let (listed, stands): (BTreeSet<&str>, BTreeSet<&str>) = (listed.lines().collect(), stands.iter().map(String::as_str).collect());
    let other = listed.symmetric_difference(&stands).next()?;
    Some(match other.split_once("  ") {
        Some((_, path)) => path.to_string(),
        None => format!("what {} leans on", other.split(':').next().unwrap_or_default()),
    })
}

/// The sources that the calls are made and proved from: the lines that tools/dist writes to dist/SOURCES.
fn sources(repository: &Path) -> io::Result<Vec<String>> {
    let text = fs::read_to_string(repository.join("crates.txt"))?;
    let lines = text.lines().map(|line| line.split('#').next().unwrap_or_default());
    let crates: Vec<(&str, Vec<&str>)> =
        lines.filter_map(|line| line.split_once(':')).map(|(name, leans)| (name.trim(), leans.split_whitespace().collect())).collect();
    let mut todo: Vec<&str> = crates.iter().map(|(name, _)| *name).filter(|name| name.starts_with("capi_")).collect();
    let mut reached = BTreeSet::new();
    while let Some(name) = todo.pop() {
        if reached.insert(name) {
            todo.extend(crates.iter().filter(|(other, _)| *other == name).flat_map(|(_, leans)| leans));
        }
    }
    let mut found = Vec::new();
    for (name, leans) in crates.iter().filter(|(name, _)| reached.contains(name)) {
        found.push([&[&*format!("{name}:")], leans.as_slice()].concat().join(" "));
        for part in ["proofs", "specs", "src"] {
            hash_files(repository, &format!("crates/{name}/{part}"), &mut found)?;
        }
    }
    Ok(found)
}

/// A line as sha256sum writes it for each file in a folder and below; none if there is no such folder.
fn hash_files(repository: &Path, folder: &str, found: &mut Vec<String>) -> io::Result<()> {
    if !repository.join(folder).is_dir() {
        return Ok(());
    }
    for entry in fs::read_dir(repository.join(folder))? {
        let entry = entry?;
        let path = format!("{folder}/{}", entry.file_name().to_string_lossy());
        if entry.file_type()?.is_dir() {
            hash_files(repository, &path, found)?;
        } else {
            found.push(format!("{}  {path}", sha256(&fs::read(entry.path())?)));
        }
    }
    Ok(())
}

fn sha256(message: &[u8]) -> String {
    let primes = || (2u32..312).filter(|n| (2..*n).take_while(|d| d * d <= *n).all(|d| n % d != 0));
    let k: Vec<u32> = primes().take(64).map(|prime| root_bits(prime, 3)).collect();
    let mut h: Vec<u32> = primes().take(8).map(|prime| root_bits(prime, 2)).collect();
    let mut padded = message.to_vec();
    padded.push(0x80);
    padded.resize((padded.len() + 8).div_ceil(64) * 64 - 8, 0);
    padded.extend((message.len() as u64 * 8).to_be_bytes());
    for block in padded.chunks_exact(64) {
        let rounds = sha256_rounds(block, &k, &h);
        h = h.iter().zip(rounds).map(|(old, new)| old.wrapping_add(new)).collect();
    }
    h.iter().map(|word| format!("{word:08x}")).collect()
}

fn sha256_rounds(block: &[u8], k: &[u32], h: &[u32]) -> Vec<u32> {
    let mut w: Vec<u32> = block.chunks_exact(4).map(|b| u32::from_be_bytes([b[0], b[1], b[2], b[3]])).collect();
    let turned = |x: u32, by: [u32; 3]| x.rotate_right(by[0]) ^ x.rotate_right(by[1]) ^ x.rotate_right(by[2]);
    let mixed = |x: u32, by: [u32; 2], shift: u32| x.rotate_right(by[0]) ^ x.rotate_right(by[1]) ^ (x >> shift);
    for i in 16..64 {
        let (s0, s1) = (mixed(w[i - 15], [7, 18], 3), mixed(w[i - 2], [17, 19], 10));
        w.push(w[i - 16].wrapping_add(s0).wrapping_add(w[i - 7]).wrapping_add(s1));
    }
    let mut v = h.to_vec();
    for i in 0..64 {
        let chosen = (v[4] & v[5]) ^ (!v[4] & v[6]);
        let most = (v[0] & v[1]) ^ (v[0] & v[2]) ^ (v[1] & v[2]);
        let one = v[7].wrapping_add(turned(v[4], [6, 11, 25])).wrapping_add(chosen).wrapping_add(k[i]).wrapping_add(w[i]);
        let two = turned(v[0], [2, 13, 22]).wrapping_add(most);
        v.rotate_right(1);
        v[4] = v[4].wrapping_add(one);
        v[0] = one.wrapping_add(two);
    }
    v
}

/// The first 32 fractional bits of a number's square root or cube root, computed in whole numbers.
fn root_bits(n: u32, power: u32) -> u32 {
    let (mut low, mut high) = (0u128, 1u128 << 36);
    while high - low > 1 {
        let middle = (low + high) / 2;
        if middle.pow(power) <= u128::from(n) << (32 * power) {
            low = middle;
        } else {
            high = middle;
        }
    }
    low as u32
}
