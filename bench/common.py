"""What the measurements share: the crates, programs built over a copy of them, and clocks."""
import os
import resource
import shutil
import subprocess
import sys
import time

TOP = os.path.dirname(os.path.dirname(os.path.realpath(__file__)))
BUILD_CRATE = os.path.join(TOP, "bin", "build-crate")


def rows():
    """The rows of crates.txt, by the crate that each lists."""
    with open(os.path.join(TOP, "crates.txt")) as given:
        return {row.split(":")[0].split()[0]: row for row in given if ":" in row.split("#")[0]}


def crates_below(name):
    """The crates that this one stands on, lowest first, and itself."""
    return subprocess.run([BUILD_CRATE, "--below", name], capture_output=True, text=True, check=True).stdout.split()


def copy_crates(folder, crates, leave_out=("out",)):
    """A repository in this folder with these crates alone."""
    listed = rows()
    with open(os.path.join(folder, "crates.txt"), "w") as kept:
        kept.writelines(listed[crate] for crate in crates)
    shutil.copy(os.path.join(TOP, "HANDLES"), folder)
    for crate in crates:
        source = os.path.join(TOP, "crates", crate)
        shutil.copytree(source, os.path.join(folder, "crates", crate), ignore=shutil.ignore_patterns(*leave_out))
    subprocess.run(["git", "init", "-q", folder], check=True)


def build_over(folder, name, stands_on, main, proofs=()):
    """Proves and builds a program over a copy of the crates that it stands on; its source is no crate of the repository.
    What it has of proofs are pairs: where a file lies in the crate, and what is copied there."""
    own = [crate for crate in stands_on if crate in rows()]
    copy_crates(folder, list(dict.fromkeys(lower for crate in own for lower in crates_below(crate))))
    with open(os.path.join(folder, "crates.txt"), "a") as kept:
        kept.write(f"{name}: {' '.join(stands_on)}\n")
    crate = os.path.join(folder, "crates", name)
    os.makedirs(os.path.join(crate, "src"))
    shutil.copy(main, os.path.join(crate, "src", "main.rt"))
    for place, proof in proofs:
        os.makedirs(os.path.dirname(os.path.join(crate, place)), exist_ok=True)
        shutil.copy(proof, os.path.join(crate, place))
    built = subprocess.run(["rt", "run"], cwd=crate, stdin=subprocess.DEVNULL, capture_output=True, text=True)
    program = os.path.join(crate, "out", name)
    if not os.path.exists(program):
        sys.exit(built.stdout[-2000:] + built.stderr[-2000:])
    return program


def own_program(name):
    """A program of the repository, proved and built where that is needed."""
    return subprocess.run([BUILD_CRATE, name], stdin=subprocess.DEVNULL, capture_output=True, text=True, check=True).stdout.strip()


def timed(words, source, folder="."):
    """Seconds of the clock, seconds of the processor, and what is printed."""
    with open(source, "rb") as given:
        begun, before = time.monotonic(), processor_seconds()
        done = subprocess.run(words, cwd=folder, stdin=given, capture_output=True)
        seconds, used = time.monotonic() - begun, processor_seconds() - before
    if done.returncode != 0:
        sys.exit(f"{words}: status {done.returncode}, {done.stdout!r}, {done.stderr!r}")
    return seconds, used, done.stdout


def processor_seconds():
    """What the processes used that this one started and that have ended."""
    used = resource.getrusage(resource.RUSAGE_CHILDREN)
    return used.ru_utime + used.ru_stime


def counted(tool, words, source, folder="."):
    """What callgrind counts of instructions, or memcheck of allocations; None where valgrind isn't installed."""
    if not shutil.which("valgrind"):
        return None
    options, mark = {
        "callgrind": (["--callgrind-out-file=/dev/null"], "refs:"),
        "memcheck": ([], "heap usage:"),
    }[tool]
    with open(source, "rb") as given:
        told = subprocess.run(["valgrind", f"--tool={tool}", *options, *words], cwd=folder, stdin=given, capture_output=True, text=True)
    return int(told.stderr.split(mark)[1].split()[0].replace(",", ""))
