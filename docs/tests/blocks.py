"""The code blocks of a document, and how those of each language are run."""

import collections
import os
import pathlib
import platform
import re
import shutil
import subprocess
import sys

ROOT = pathlib.Path(__file__).resolve().parents[2]
TARGET = platform.machine() + "-unknown-linux-gnu"
ARCHIVE = ROOT / "target" / "archive" / TARGET
BINDINGS = ROOT / "target" / "bindings" / TARGET
ROOM = ROOT / "target" / "docs"

Block = collections.namedtuple("Block", "file line language need text")


class Skip(Exception):
    """What a block needs is not here."""


class Wrong(Exception):
    """A block does not compile, does not run or writes something else."""


def blocks_of(file):
    """The fenced blocks of a file, each with the line that it begins at and the two words after its fence."""
    found, begun, lines = [], None, []
    for number, line in enumerate((ROOT / file).read_text().splitlines(), 1):
        if begun is None and line.startswith("```"):
            begun, lines = (number, *(line[3:].split() + ["", ""])[:2]), []
        elif begun is not None and line == "```":
            found.append(Block(file, *begun, "\n".join(lines) + "\n"))
            begun = None
        elif begun is not None:
            lines.append(line)
    if begun is not None:
        raise Wrong(f"{file}:{begun[0]}: the block has no end")
    return found


def run(command, **options):
    """What a command writes; Wrong, with all that it said, where it fails."""
    try:
        done = subprocess.run(command, cwd=ROOT, text=True, capture_output=True, **options)
    except OSError as fault:
        raise Wrong(str(fault)) from fault
    if done.returncode != 0:
        raise Wrong(f"{' '.join(map(str, command))}\n{done.stdout}{done.stderr}")
    return done.stdout


def need(tool, package):
    """A Skip that names Debian's package of a tool, where the tool is not here."""
    if shutil.which(tool) is None:
        raise Skip(f"there is no {tool} (Debian's {package})")


built = set()


def build(binding):
    """Builds a binding once."""
    if not (ROOT / "bindings" / binding / "build").is_file():
        raise Skip(f"there is no bindings/{binding}")
    if binding not in built:
        run([f"bindings/{binding}/build"])
        built.add(binding)


def environment():
    """That of this program, with the Python binding to be found."""
    return {**os.environ, "PYTHONPATH": str(BINDINGS / "python"), "PYTHONDONTWRITEBYTECODE": "1"}


def expect(wanted, got):
    """Wrong, with the first line that is not as it should be."""
    for number, (should, line) in enumerate(zip(wanted, got), 1):
        if should != line:
            raise Wrong(f"output {number} should be\n  {should}\nand is\n  {line}")
    if len(wanted) != len(got):
        rest = (wanted + got)[min(len(wanted), len(got)):][:1]
        raise Wrong(f"there should be {len(wanted)} lines of output, and there are {len(got)}; one of the difference: {rest}")


def joined(blocks):
    return "".join(block.text for block in blocks)


def scopes(blocks):
    """Each block as a scope of its own."""
    return "".join("{\n" + block.text + "}\n" for block in blocks)


def written(blocks, suffix, text):
    """The path of a program with that text."""
    path = ROOM / (blocks[0].file.replace("/", "_").removesuffix(".md") + suffix)
    path.write_text(text)
    return path


def run_c(blocks):
    """Blocks that begin with #include stand before main, or have it; any other is a scope in it."""
    need("gcc", "gcc")
    outer = joined(block for block in blocks if block.text.startswith("#include"))
    inner = scopes(block for block in blocks if not block.text.startswith("#include"))
    main = "" if "int main(" in outer else f"int main(void) {{\n{inner}return 0;\n}}\n"
    path = written(blocks, ".c", outer + main)
    words = ["-std=c11", "-Wall", "-Wextra", "-Werror", "-pedantic", f"-I{ARCHIVE}", path, ARCHIVE / "libfuzzydate.a"]
    run(["gcc", *words, "-o", path.with_suffix("")])
    return run([path.with_suffix("")])


def run_java(blocks):
    need("javac", "openjdk-17-jdk-headless")
    build("java")
    folder = ROOM / "java"
    folder.mkdir(exist_ok=True)
    imports = "".join(f"import {name}.*;\n" for name in ("fuzzydate", "java.nio.file", "java.time"))
    path = folder / "Blocks.java"
    main = f"public static void main(String[] none) throws Exception {{\n{scopes(blocks)}}}\n"
    path.write_text(f"{imports}final class Blocks {{\n{main}}}\n")
    jar = BINDINGS / "java" / "fuzzydate.jar"
    run(["javac", "--release", "8", "-Xlint:all,-options", "-Werror", "-cp", jar, "-d", folder, path])
    return run(["java", f"-Djava.library.path={jar.parent}", "-cp", f"{jar}:{folder}", "Blocks"])


def run_js(blocks):
    need("node", "nodejs")
    build("js")
    link = ROOM / "node_modules" / "fuzzydate"
    link.parent.mkdir(exist_ok=True)
    if not link.is_symlink():
        link.symlink_to(ROOT / "target" / "bindings" / "js" / "package")
    return run(["node", written(blocks, ".mjs", joined(blocks))])


def run_python(blocks):
    build("python")
    return run([sys.executable, "-W", "error", written(blocks, ".py", joined(blocks))], env=environment())


def run_rust(blocks):
    need("cargo", "cargo")
    folder = ROOM / "rust"
    (folder / "src").mkdir(parents=True, exist_ok=True)
    crate = f'[dependencies]\nfuzzydate = {{ path = "{ROOT}/bindings/rust" }}\n'
    (folder / "Cargo.toml").write_text(f'[package]\nname = "blocks"\nversion = "0.0.0"\nedition = "2021"\n\n{crate}\n[workspace]\n')
    main = f"fn main() -> Result<(), Box<dyn std::error::Error>> {{\n{scopes(blocks)}Ok(())\n}}\n"
    (folder / "src" / "main.rs").write_text(main)
    return run(["cargo", "run", "--quiet", "--offline", "--manifest-path", folder / "Cargo.toml"])


def run_sql(blocks):
    need("sqlite3", "sqlite3")
    build("sqlite")
    extension = BINDINGS / "sqlite" / "fuzzydate"
    return run(["sqlite3", "-bail", "-cmd", f".load {extension}", ":memory:"], input=joined(blocks))


def after(mark):
    """What stands in comments after statements, in order."""
    return lambda text: re.findall(rf"(?m)^ *(?!{mark}|\s).* {mark} (.*)$", text)


def given(text):
    """What the comments say that the queries give."""
    return re.findall(r"(?m)^--> (.*)$", text)


# How the blocks of a language are run, and what they say that they write.
LANGUAGES = {
    "c": (run_c, after("//")),
    "java": (run_java, after("//")),
    "js": (run_js, after("//")),
    "python": (run_python, after("#")),
    "rust": (run_rust, after("//")),
    "sql": (run_sql, given),
}


def no_language(block):
    raise Wrong(f"line {block.line}: a block without a language")


def try_program(blocks):
    """Runs a file's blocks of one language and compares what they write."""
    runner, says = LANGUAGES[blocks[0].language]
    expect([line for block in blocks for line in says(block.text)], runner(blocks).splitlines())


# The tools that console blocks begin with, and Debian's packages of them.
PACKAGES = {"cc": "gcc", "zic": "libc-bin", "npm": "npm", "node": "nodejs", "python3": "python3-venv"}


def commands_of(text):
    """Each command of a console block with the lines that it writes. The line after a backslash at the end goes on with it."""
    commands, goes_on = [], False
    for line in text.splitlines():
        if line.startswith("$ "):
            commands.append((line[2:], []))
        elif goes_on:
            commands[-1] = (commands[-1][0] + "\n" + line.removeprefix("> "), [])
        else:
            commands[-1][1].append(line)
            continue
        goes_on = line.endswith("\\")
    return commands


def try_console(block, kit):
    """Runs the commands of a block in one shell, and compares what each writes."""
    if block.need == "kit" and not kit:
        raise Skip("it needs the kit and takes long: docs/test --kit")
    commands = commands_of(block.text)
    for tool in (command.split()[0] for command, _ in commands):
        if tool in PACKAGES:
            need(tool, PACKAGES[tool])
    script = "".join(f"{command}\nprintf '\\0'\n" for command, _ in commands)
    said = run(["bash", "-euo", "pipefail", "-c", script], env=environment())
    for (_, output), written_lines in zip(commands, said.split("\0")):
        expect(output, written_lines.splitlines())
