"""What tests/faces and tests/ports share: commands that have to succeed, what has to be installed, a driver held to a script."""

import os
import shutil
import subprocess
import sys
from collections import Counter

ROOT = os.path.dirname(os.path.dirname(os.path.dirname(os.path.abspath(__file__))))
NAME = os.path.basename(sys.argv[0])
# a Cortex-M with more RAM than the 16 KB of examples/cortex-m4, for the linker, and the emulated Cortex-M0 that has it
LARGER_RAM = ["-Wl,--defsym=ram_bytes=0x10000"]
MICROBIT = ["-M", "microbit", "-global", "nrf51-soc.sram-size=0x10000"]


def fail(why):
    """End here."""
    print(f"{NAME}: {why}", file=sys.stderr)
    # a thread's sys.exit would end the thread alone
    os._exit(1)


def run(command, **more):
    """A command that has to succeed; what it printed."""
    done = subprocess.run(command, cwd=ROOT, stdout=subprocess.PIPE, stderr=subprocess.PIPE, **more)
    if done.returncode != 0:
        said = (done.stdout + done.stderr).decode(errors="replace")
        fail(f"{' '.join(command)} ended with status {done.returncode}\n{said}")
    return done.stdout.decode()


def needed(tools, install):
    """Each tool is there, or is named with its Debian package, or installed."""
    missing = {tool: package for tool, package in tools.items() if not shutil.which(tool)}
    if missing and not install:
        fail("missing: " + ", ".join(f"{tool} (Debian package {package})" for tool, package in missing.items()))
    if missing:
        run(["apt-get", "update"])
        run(["apt-get", "install", "-y", "--no-install-recommends", *sorted(set(missing.values()))])


def results(*scripts):
    """How often each number was returned, in words."""
    counts = Counter(int(answer.split(" ", 1)[0]) for script in scripts for answer in script.answers)
    return "results: " + ", ".join(f"{number}: {count}" for number, count in sorted(counts.items()))


def compare(name, command, script):
    """Run a driver on a script; end here at the first answer that differs."""
    got = run(command, input="\n".join(script.lines + [""]).encode()).splitlines()
    if got == script.answers:
        return
    acts = [line for line in script.lines if line[0] not in "WGH"]
    at = next((i for i, pair in enumerate(zip(got, script.answers)) if pair[0] != pair[1]), min(len(got), len(script.answers)))
    shown = [answers[at] if at < len(answers) else "(nothing)" for answers in (script.answers, got)]
    fail(f"{name} differs at act {at + 1}: {acts[at] if at < len(acts) else ''}\n  wanted {shown[0]}\n  got    {shown[1]}")
