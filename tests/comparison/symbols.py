"""What the scripts of this folder share: the symbols of real programs, and what commands print for them."""
import glob
import re
import shutil
import subprocess
import sys
import tempfile

LIBRARIES = "/usr/lib/x86_64-linux-gnu/lib*.so*"


def run(command, text=""):
    return subprocess.run(command, input=text, encoding="latin-1", stdout=subprocess.PIPE, stderr=subprocess.PIPE)


def texts(command, symbols):
    """What a command prints for symbols, one per line."""
    lines = run(command, "".join(symbol + "\n" for symbol in symbols)).stdout.split("\n")[:-1]
    if len(lines) != len(symbols):
        sys.exit(f"{command[0]} writes {len(lines)} lines for {len(symbols)} symbols")
    return lines


def newest(command):
    versions = [f"{command}-{number}" for number in range(30, 13, -1)]
    return next((name for name in [*versions, command] if shutil.which(name)), command)


def version(command):
    return re.search(r"\d+\.\d+", run([command, "--version"]).stdout).group()


def cosvigle(style):
    """The command that prints the declarations of lines, in a style."""
    return [sys.argv[1] if len(sys.argv) > 1 else "crates/cosvigle/out/cosvigle", "--lines", f"--style={style}"]


def symbols_of(files, *options):
    names = run(["nm", "-j", "--without-symbol-versions", *options, *files]).stdout.split("\n")
    return sorted({name for name in names if re.fullmatch(r"_Z[A-Za-z0-9_.$]+", name)})


def symbols_of_source(source, *commands):
    """The first of the commands that builds the source, and its symbols."""
    with tempfile.TemporaryDirectory() as folder:
        for command in commands:
            built = f"{folder}/built.o"
            if run([*command, "-c", f"tests/comparison/{source}", "-o", built]).returncode == 0:
                return command, symbols_of([built])
    sys.exit(f"{commands[0][0]} doesn't build tests/comparison/{source}")


def real_sets():
    """The name of each set of symbols, and its symbols: of the shared libraries, and of the two programs."""
    yield "shared libraries", symbols_of(glob.glob(LIBRARIES), "-D")
    _, symbols = symbols_of_source("program.cc", ["g++", "-std=c++20"])
    yield f"C++20, g++ {version('g++')}", symbols
    clang = [newest("clang++"), "-std=c++2b"]
    command, symbols = symbols_of_source("program.cc", [*clang, "-stdlib=libc++"], clang)
    yield f"C++23, clang++ {version(clang[0])}, {'libc++' if command != clang else 'libstdc++'}", symbols


def closed(text):
    while "> >" in text:
        text = text.replace("> >", ">>")
    return text
