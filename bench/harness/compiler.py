"""Compiles the C++ of this folder."""
import pathlib
import subprocess

from harness.console import Failure

BENCH = pathlib.Path(__file__).resolve().parent.parent
OUT = BENCH / "out"
# As the program is built: by clang's -O3 for this level of processor.
COMPILE = ("g++", "-std=c++20", "-O3", "-march=x86-64-v2", "-Wall", "-Wextra")
COMPILE_SECONDS = 300


def has_header(header):
    """Whether the compiler finds a header."""
    program = f"#if !__has_include(<{header}>)\n#error\n#endif\n"
    return compiler("-fsyntax-only", "-x", "c++", "-", program=program).returncode == 0


def compile_to(target, sources, flags, headers=()):
    """Compiles the sources, where the target is not newer than all that it is made of."""
    made = target.stat().st_mtime if target.exists() else 0
    if all(file.stat().st_mtime < made for file in (*sources, *headers)):
        return
    target.parent.mkdir(parents=True, exist_ok=True)
    compiled = compiler("-o", target, *sources, *flags, "-pthread")
    if compiled.returncode != 0:
        raise Failure(f"{target.name} does not compile:\n{compiled.stderr}")


def compiler(*words, program=""):
    """What the compiler answers to these words, with a program as its input."""
    try:
        return subprocess.run([*COMPILE, *map(str, words)], input=program, capture_output=True, text=True, timeout=COMPILE_SECONDS)
    except subprocess.TimeoutExpired:
        raise Failure(f"the compiler did not end within {COMPILE_SECONDS} s") from None
