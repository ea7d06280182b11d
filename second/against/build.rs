//! Links the static libraries that `library/archive exported zt` builds. They are for x86-64: on another processor, and where `ROUTE=server` asks for it,
//! `far/near.c` stands in for them.

use std::env::var;
use std::process::Command;

fn main() {
    // At run time: a build that is kept from another clone must not name that clone's library.
    let here = var("CARGO_MANIFEST_DIR").expect("cargo names the folder");
    let built = format!("{here}/../../target/staticlib");
    let libraries = ["exported", "zt"].map(|name| format!("{built}/lib{name}.a"));
    for library in &libraries {
        println!("cargo:rerun-if-changed={library}");
    }
    println!("cargo:rerun-if-env-changed=ROUTE");
    println!("cargo:rustc-check-cfg=cfg(served)");
    println!("cargo:rerun-if-env-changed=WHOLE");
    println!("cargo:rustc-check-cfg=cfg(whole)");
    if var("WHOLE").as_deref() == Ok("1") {
        println!("cargo:rustc-cfg=whole");
    }
    let linked = var("CARGO_CFG_TARGET_ARCH").expect("cargo names the processor") == "x86_64";
    if linked && var("ROUTE").as_deref() != Ok("server") {
        println!("cargo:rustc-link-search=native={built}");
        println!("cargo:rustc-link-lib=static=exported");
        println!("cargo:rustc-link-lib=static=zt");
        return;
    }
    println!("cargo:rustc-cfg=served");
    println!("cargo:rerun-if-changed={here}/far");
    let out = var("OUT_DIR").expect("cargo names a folder for this");
    let words = ["-std=gnu11", "-Wall", "-Wextra", "-Werror", "-O2"];
    let server = format!("{out}/server");
    let far = format!("{here}/far/server.c");
    run(Command::new(format!("{here}/../../host/cc")).args(words).args(["-o", &server, &far]).args(libraries));
    let object = format!("{out}/near.o");
    let near = [
        format!("-I{here}/../../include"),
        format!("-DRUNNER=\"{here}/../../host/run\""),
        format!("-DSERVER=\"{server}\""),
        format!("{here}/far/near.c"),
    ];
    run(Command::new("gcc").args(words).args(near).args(["-c", "-o", &object]));
    run(Command::new("ar").args(["rcs", &format!("{out}/libnear.a"), &object]));
    println!("cargo:rustc-link-search=native={out}");
    println!("cargo:rustc-link-lib=static=near");
}

fn run(command: &mut Command) {
    let status = command.status();
    assert!(status.as_ref().is_ok_and(|status| status.success()), "{command:?}: {status:?}");
}
