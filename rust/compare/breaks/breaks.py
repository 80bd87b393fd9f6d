#!/usr/bin/env python3
"""Breaks the engine on purpose and says whether `compare` notices.

usage: breaks.py SEED COUNT LONGEST [CRATE/LABEL ...]     (the edits of breaks.txt where none is named)

Only a proved crate is built into a library, so a broken one is compiled the way `rt try` compiles a program without a
proof: a program that mentions the library's calls, with a compiler in between that keeps what it is given. Each edit is
one of the edits of a crate's source (must-fail/ or edits/). The first line is the engine as it is: there nothing may differ.
"""
import os
import pathlib
import re
import shutil
import subprocess
import sys
import tempfile

HERE = pathlib.Path(__file__).resolve().parent
TOP = HERE.parents[2]
KIT = pathlib.Path(os.environ.get("RATTLE_HOME") or pathlib.Path(shutil.which("rt")).resolve().parent.parent)
TOOLS = KIT / "on" / os.uname().machine
CLANG = TOOLS / "toolchain/bin/clang"
CALLS = {
    "capi": ["lk_read", "lk_write", "lk_run", "lk_compile", "lk_parse", "lk_preview", "lk_with_slots", "lk_reclaim"],
    "capi_rights": ["lk_edit", "lk_show"],
}

# A program that reaches the calls and makes none of them.
PROGRAM = """fn main() {
    let never = 0;
    if never == 1 {
        let mut ws = [0; 98304];
        let mut val = [0; 32768];
        let mut cw = [0; 65536];
        let mut bw = [0; 20480];
        let mut births = [0; 4096];
        let mut bytes = [0, 0];
        let shorts = [0, 0];
        let mut vars = [0, 0];
        capi::lk_read(&bytes, &mut ws, &mut val, &mut cw, &mut bw, &mut births);
        capi::lk_run(&bytes, 0, 0, 1, 2, &ws, &val, &cw, &bw, 0, 0, 0, 0, &shorts, &bytes, &bytes, &shorts, &mut vars, 5);
        capi::lk_write(&ws, &val, &cw, &bw, 0, 0, 0, &mut bytes);
        let mut items = [0; 20];
        let mut limits = [0; 20];
        let mut codes = [0; 280];
        let mut lens = [0; 20];
        let given = [0, 0];
        capi::lk_with_slots(&vars, &shorts, &given, &bytes, &mut items, &mut limits, &mut codes, &mut lens);
        capi::lk_parse(&bytes, 0, 0, 1, 2, &ws, &val, &cw, &bw, 0, 0, 0, 0, &mut items, &mut limits, &mut codes, &mut lens);
        capi::lk_preview(&bytes, 0, 0, 1, 2, &items, &limits, &codes, &lens, &shorts, &bytes, &bytes, &shorts, &vars);
        capi::lk_compile(&bytes, 0, 0, 1, 2, &mut ws, &mut val, &mut cw, &mut bw, &mut births, 0, 0, 0, 0, 0, 0, &items, &limits, &codes, &lens);
        let roots = [0, 0];
        let mut moved = [0; 4096];
        capi::lk_reclaim(&mut ws, &mut val, &mut cw, &mut bw, &mut births, 0, 0, 0, 0, &roots, &mut moved);
        let rights = [0; 320];
        let row = [0; 14];
        capi_rights::lk_edit(&bytes, 0, 0, 1, 2, &rights, &mut items, &mut limits, &mut codes, &mut lens, 0, 0, 0, 0, 0, &row, 0);
        capi_rights::lk_show(&rights, &mut items, &mut limits, &mut codes, &mut lens, 0);
    }
}
"""


def reached():
    """The crates that export calls and those that they rest on, each behind what it rests on."""
    lines = (TOP / "crates.txt").read_text().splitlines()
    deps = dict(re.split(r":\s*", line, maxsplit=1) for line in lines if line and not line.startswith("#"))
    order = []

    def visit(crate):
        for dep in deps[crate].split():
            visit(dep)
        if crate not in order:
            order.append(crate)

    for name in CALLS:
        visit(name)
    return order


def apply(edit, crates):
    """Makes the replacements of a must-fail edit in the copies of the crates: lines of `old:`, then lines of `new:`."""
    crate, label = edit.split("/")
    file = None
    pairs = []
    folders = [TOP / "crates" / crate / kind for kind in ("must-fail", "edits")]
    found = [folder / f"{label}.edit" for folder in folders if (folder / f"{label}.edit").is_file()]
    for line in found[0].read_text().splitlines():
        if line.startswith("file: "):
            file = crates / crate / line[6:]
        elif line.startswith("old:"):
            if not pairs or pairs[-1][2]:
                pairs.append((file, [], []))
            pairs[-1][1].append(line[5:])
        elif line.startswith("new:"):
            pairs[-1][2].append(line[5:])
    for file, old, new in pairs:
        text = file.read_text()
        assert text.count("\n".join(old)) == 1, (edit, old)
        file.write_text(text.replace("\n".join(old), "\n".join(new)))


def module(crates, work):
    """The engine as LLVM's text, with the calls to be seen from outside."""
    tool = work / "tool"
    (tool / "bin").mkdir(parents=True)
    (tool / "lib").symlink_to(TOOLS / "toolchain/lib")
    (tool / "bin/clang").write_text(f"#!/bin/sh\ncp module.bc {work}/module.bc\nexit 1\n")
    (tool / "bin/clang").chmod(0o755)
    for name in ("ld.lld", "llvm-ar"):
        (tool / "bin" / name).symlink_to("clang")
    program = work / "program/main.rt"
    program.parent.mkdir()
    program.write_text(PROGRAM)
    sources = [f"std={KIT}/libs/std/src/lib.rt"] + [f"{crate}={crates}/{crate}/src/lib.rt" for crate in reached()]
    libs = [word for source in sources for word in ("--lib", source)]
    command = [TOOLS / "bin/rattle-cases", "--toolchain", tool, program, "--crate-name", "broken", *libs]
    said = subprocess.run(command, capture_output=True, text=True)
    if not (work / "module.bc").exists():
        raise RuntimeError(said.stdout + said.stderr)
    flags = ["-S", "-emit-llvm", "-x", "ir", "-O0", "-Xclang", "-disable-llvm-passes"]
    subprocess.run([CLANG, *flags, work / "module.bc", "-o", work / "module.ll"], check=True, capture_output=True)
    text = (work / "module.ll").read_text()
    for name, call in ((name, call) for name, calls in CALLS.items() for call in calls):
        text = re.sub(rf'define internal (.*)@"{name}::{call}"', rf'define \1@"{name}::{call}"', text)
        text = text.replace(f'@"{name}::{call}"', f"@inner_{call}")
    return text.replace("define i32 @main()", "define internal i32 @main()")


def library(crates, work, folder):
    """Compiles the engine, whatever it is, into a library of the same name."""
    (work / "module.ll").write_text(module(crates, work))
    subprocess.run([CLANG, "-O3", "-fPIC", "-c", work / "module.ll", "-o", work / "module.o"], check=True, capture_output=True)
    shim = ["cc", "-O2", "-fPIC", "-I", TOP / "include", "-c", HERE / "shim.c", "-o", work / "shim.o"]
    subprocess.run(shim, check=True)
    archive = folder / "liblocustkeno.a"
    archive.unlink(missing_ok=True)
    subprocess.run(["ar", "rcs", archive, work / "module.o", work / "shim.o"], check=True)


def verdict(folder, arguments):
    """What `compare` says of the library in the folder."""
    env = dict(os.environ, LOCUSTKENO_LIB=str(folder), CARGO_TARGET_DIR=str(TOP / "target/breaks"))
    build = ["cargo", "build", "-q", "-j1", "--offline", "--release", "-p", "compare"]
    subprocess.run(build, check=True, env=env, cwd=TOP / "rust")
    try:
        ran = subprocess.run([TOP / "target/breaks/release/compare", *arguments], capture_output=True, text=True, timeout=600)
    except subprocess.TimeoutExpired:
        return "caught: it does not end"
    if ran.returncode < 0:
        return f"caught: signal {-ran.returncode}"
    found = re.search(r"differences: (\d+)", ran.stdout)
    if ran.returncode == 0:
        return "no difference"
    return f"caught: {found.group(1)} differences" if found else f"caught: {ran.stderr.strip()[:80]}"


def main():
    arguments, edits = sys.argv[1:4], sys.argv[4:]
    edits = edits or [line.split()[0] for line in (HERE / "breaks.txt").read_text().splitlines() if line and line[0] != "#"]
    caught = 0
    with tempfile.TemporaryDirectory() as temporary:
        folder = pathlib.Path(temporary) / "library"
        folder.mkdir()
        for edit in [None, *edits]:
            work = pathlib.Path(temporary) / "work"
            shutil.rmtree(work, ignore_errors=True)
            crates = work / "crates"
            for crate in reached():
                shutil.copytree(TOP / "crates" / crate / "src", crates / crate / "src")
            if edit:
                apply(edit, crates)
            library(crates, work, folder)
            said = verdict(folder, arguments)
            caught += said.startswith("caught") and edit is not None
            print(f"{edit or 'the engine as it is'}: {said}", flush=True)
    print(f"{caught} of {len(edits)} caught")


main()
