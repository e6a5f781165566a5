"""A program over the crates in a workspace of its own, and the time and peak memory of one run of a command."""
import os
import shutil
import subprocess
import time


def timed(words, folder):
    """The seconds, the seconds of processor time, the peak memory in MB and the status of one run, by the command time."""
    started = time.monotonic()
    done = subprocess.run(["/usr/bin/time", "-q", "-f", "%M %U %S"] + words, cwd=folder, capture_output=True, text=True)
    seconds = time.monotonic() - started
    kilobytes, user, system = done.stderr.split("\n")[-2].split()
    return seconds, float(user) + float(system), int(kilobytes) / 1024, done.returncode


def run(words, folder):
    """The seconds, the peak memory in MB and the status of one run."""
    seconds, _, memory, status = timed(words, folder)
    return seconds, memory, status


def below(top, names):
    """The lines of crates.txt of these crates and of those below them, by name, in their order."""
    lines = dict(line.split(":", 1) for line in open(os.path.join(top, "crates.txt")) if ":" in line)
    found, left = set(), list(names)
    while left:
        name = left.pop()
        if name in lines and name not in found:
            found.add(name)
            left += lines[name].split()
    return {name: words for name, words in lines.items() if name in found}


def built(top, folder, name, text, stands_on):
    """The program `name` with the source `text`, proved and built in a workspace in `folder`; it stands on these crates."""
    place = os.path.join(folder, "crates", name)
    program = os.path.join(place, "out", name)
    if not os.path.exists(program):
        os.makedirs(os.path.join(place, "src"))
        shutil.copy(os.path.join(top, "HANDLES"), folder)
        shutil.copy(text, os.path.join(place, "src/main.rt"))
        with open(os.path.join(folder, "crates.txt"), "w") as file:
            for crate, words in below(top, stands_on).items():
                file.write(f"{crate}:{words}")
                shutil.copytree(os.path.join(top, "crates", crate), os.path.join(folder, "crates", crate))
            file.write(f"{name}: {' '.join(stands_on)}\n")
        subprocess.run(["rt", "run"], cwd=place, capture_output=True)
    return program
