//! Compiles board.c, or links the native library that the environment's BOARD_LIBRARY_DIR names. It needs no other
//! crate, so a build needs no network.
use std::path::{Path, PathBuf};
use std::process::Command;
use std::{env, fs};

/// The optimization where the profile asks for less: a count without it takes many times as long.
const LEAST_OPTIMIZATION: u32 = 2;

fn main() {
    println!("cargo:rerun-if-env-changed=BOARD_LIBRARY_DIR");
    match env::var_os("BOARD_LIBRARY_DIR") {
        Some(folder) => link(&PathBuf::from(folder)),
        None => compile(&source()),
    }
}

/// Links `libboard.a` of a folder.
fn link(folder: &Path) {
    assert!(folder.is_absolute(), "BOARD_LIBRARY_DIR is {}: give it as an absolute path", folder.display());
    let archive = folder.join("libboard.a");
    assert!(archive.is_file(), "BOARD_LIBRARY_DIR is {}: that folder has no libboard.a", folder.display());
    println!("cargo:rerun-if-changed={}", archive.display());
    println!("cargo:rustc-link-search=native={}", folder.display());
    println!("cargo:rustc-link-lib=static=board");
    println!("cargo:rustc-env=VOTING_BOARD_LIBRARY=native");
}

/// The folder of board.c: this crate's own as it is packaged, and `portable` in a clone of the repository.
fn source() -> PathBuf {
    let own = PathBuf::from(env::var_os("CARGO_MANIFEST_DIR").expect("cargo sets CARGO_MANIFEST_DIR"));
    let clone = own.join("../../../portable");
    let mut folders = [own, clone].into_iter();
    folders.find(|it| it.join("board.c").is_file()).expect("board.c is neither in this crate nor in ../../../portable")
}

/// Makes an archive of board.c by the programs that CC and AR name.
fn compile(folder: &Path) {
    for file in ["board.c", "board.h"] {
        println!("cargo:rerun-if-changed={}", folder.join(file).display());
    }
    let asked: u32 = env::var("OPT_LEVEL").ok().and_then(|it| it.parse().ok()).unwrap_or(LEAST_OPTIMIZATION);
    let made = PathBuf::from(env::var_os("OUT_DIR").expect("cargo sets OUT_DIR"));
    let (object, archive) = (made.join("board.o"), made.join("libvoting_board.a"));
    let mut compiler = tool("CC", "cc");
    compiler.arg(format!("-O{}", asked.max(LEAST_OPTIMIZATION))).args(["-fPIC", "-w", "-c", "-I"]).arg(folder);
    run(compiler.arg(folder.join("board.c")).arg("-o").arg(&object));
    // An archive that is there would keep what it has.
    let _ = fs::remove_file(&archive);
    run(tool("AR", "ar").arg("crs").arg(&archive).arg(&object));
    println!("cargo:rustc-link-search=native={}", made.display());
    println!("cargo:rustc-link-lib=static=voting_board");
    println!("cargo:rustc-env=VOTING_BOARD_LIBRARY=board.c");
}

/// The command of a tool: for the target, as CC_x86_64_unknown_linux_gnu; or CC; or the usual one, unless the target is
/// another system than this one.
fn tool(name: &str, usual: &str) -> Command {
    let variable = |name: &str| env::var(name).ok().filter(|it| !it.trim().is_empty());
    let target = env::var("TARGET").expect("cargo sets TARGET");
    let names = [format!("{name}_{}", target.replace('-', "_")), name.to_string()];
    for it in &names {
        println!("cargo:rerun-if-env-changed={it}");
    }
    let usual = Some(usual.to_string()).filter(|_| env::var("HOST").as_ref() == Ok(&target));
    let words = names.iter().find_map(|it| variable(it)).or(usual);
    let words = words.unwrap_or_else(|| panic!("{} names no program for {target}", names[0]));
    let mut words = words.split_whitespace();
    let mut command = Command::new(words.next().expect("a word"));
    command.args(words);
    command
}

/// Runs a command, which must end well.
fn run(command: &mut Command) {
    match command.status() {
        Ok(status) => assert!(status.success(), "{command:?} ended with {status}"),
        Err(why) => panic!("{command:?} can't be started: {why}. CC and AR name the C compiler and the archiver"),
    }
}
