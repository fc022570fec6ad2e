"""Tries the build files that the documents show, each with a program of three lines that says the library's version."""

import shutil

from blocks import ROOM, ROOT, TARGET, expect, need, run

VERSION = ["1000000"]
PROGRAM = '#include "fuzzy.h"\n#include <stdio.h>\nint main(void) { printf("%u\\n", (unsigned)fuzzy_version()); return 0; }\n'
RUST = 'fn main() { println!("{}", fuzzydate::version()); }\n'


def fresh(name):
    """An empty folder of that name."""
    folder = ROOM / name
    shutil.rmtree(folder, ignore_errors=True)
    folder.mkdir(parents=True)
    return folder


def try_cmake(text):
    """An app whose CMakeLists.txt has the block, beside the C package."""
    app = fresh("cmake")
    run(["bindings/c/package", app / "c", TARGET])
    (app / "app.c").write_text(PROGRAM)
    (app / "CMakeLists.txt").write_text(f"cmake_minimum_required(VERSION 3.13)\nproject(app C)\nadd_executable(app app.c)\n{text}")
    run(["cmake", "-S", app, "-B", app / "build", f"-DCMAKE_PREFIX_PATH={app / 'c'}"])
    run(["cmake", "--build", app / "build"])
    return run([app / "build" / "app"])


def try_cargo(text):
    """A project beside this repository, which is called fuzzydate there, with the block's dependency."""
    folder = fresh("cargo")
    (folder / "fuzzydate").symlink_to(ROOT)
    (folder / "app" / "src").mkdir(parents=True)
    (folder / "app" / "src" / "main.rs").write_text(RUST)
    (folder / "app" / "Cargo.toml").write_text(f'[package]\nname = "app"\nversion = "0.0.0"\nedition = "2021"\n\n{text}\n[workspace]\n')
    return run(["cargo", "run", "--quiet", "--offline", "--manifest-path", folder / "app" / "Cargo.toml"])


# The tool that a block's language needs, Debian's package of it, and how the block is tried.
TRIED = {
    "cmake": ("cmake", "cmake", try_cmake),
    "toml": ("cargo", "cargo", try_cargo),
}


def try_build(block):
    """Builds a program by a block, and looks that it says the version."""
    tool, package, action = TRIED[block.language]
    need(tool, package)
    expect(VERSION, action(block.text).splitlines())
