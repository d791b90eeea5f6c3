"""The two programs that are compared: where they are, and how they are built when they are missing."""

import glob
import os
import re
import shutil
import subprocess
import sys

HERE = os.path.dirname(os.path.abspath(__file__))
OUT = os.path.join(HERE, "out")
PROGRAM_CRATE = os.path.join(os.path.dirname(HERE), "crates", "globsift")
INSTALLED_CRATES = "/usr/share/cargo/registry"
PACKAGES = ["librust-globset-dev", "librust-memchr-dev", "librust-ignore-dev"]
# Debian's newest release, whatever this machine runs, since older ones have a much older globset.
RELEASE = "sid"
SOURCES = ["/etc/apt/sources.list", "/etc/apt/sources.list.d/*.list", "/etc/apt/sources.list.d/*.sources"]


def say(text):
    print(text, file=sys.stderr, flush=True)


def run(command, **settings):
    return subprocess.run(command, check=True, **settings)


def crate_version(crate, crates):
    """The version of the newest release of a crate in a folder of crates, or None."""
    if not os.path.isdir(crates):
        return None
    versions = [found[1] for found in (re.fullmatch(rf"{crate}-([0-9.]+)", name) for name in os.listdir(crates)) if found]
    return max(versions, key=lambda version: [int(number) for number in version.split(".")], default=None)


def globset_version(crates):
    """The version of the newest globset in a folder of crates, or None."""
    return crate_version("globset", crates)


def mirror():
    """The address of a mirror of Debian: the first one in this system's list of sources."""
    for name in (name for pattern in SOURCES for name in sorted(glob.glob(pattern))):
        with open(name) as file:
            for line in file:
                found = re.match(r"(?:deb\s+(?:\[[^]]*\]\s*)?|URIs:(?:\s*|.*\s))(\S+/debian/?)(?:\s|$)", line)
                if found:
                    return found[1]
    raise SystemExit(
        f"This system's list of sources ({', '.join(SOURCES)}) has no mirror of Debian, whose address ends in /debian. "
        "Name one by --mirror, or a folder that has the sources of globset, memchr and what these use by --crates."
    )


def download_crates(address):
    """Unpacks the Debian packages with the crates below `OUT`, without installing them; returns the folder of crates.

    They come from the mirror with this address.
    """
    apt, packages, root = (os.path.join(OUT, name) for name in ("apt", "packages", "root"))
    for folder in (f"{apt}/lists/partial", f"{apt}/cache/archives/partial", packages, root):
        os.makedirs(folder, exist_ok=True)
    # Empty, so that apt takes no package for installed.
    open(f"{apt}/status", "w").close()
    with open(f"{apt}/sources.list", "w") as file:
        file.write(f"deb {address} {RELEASE} main\n")
    settings = {
        "Dir::State::lists": f"{apt}/lists",
        "Dir::State::status": f"{apt}/status",
        "Dir::Cache": f"{apt}/cache",
        "Dir::Etc::sourcelist": f"{apt}/sources.list",
        "Dir::Etc::sourceparts": "/dev/null",
    }
    apt_get = ["apt-get", "-q"] + [word for name, value in settings.items() for word in ("-o", f"{name}={value}")]
    say(f"Downloading the crates of Debian {RELEASE} from {address}")
    run(apt_get + ["update"], stdout=sys.stderr)
    wanted = run(
        apt_get + ["--simulate", "--no-install-recommends", "install"] + PACKAGES, capture_output=True, text=True
    ).stdout
    names = [line.split()[1] for line in wanted.splitlines() if line.startswith("Inst librust-")]
    run(apt_get + ["download"] + names, cwd=packages, stdout=sys.stderr)
    for name in sorted(os.listdir(packages)):
        run(["dpkg-deb", "--extract", os.path.join(packages, name), root])
    shutil.rmtree(apt)
    return root + INSTALLED_CRATES


def find_crates(given, address, crate="globset"):
    """The folder of crates, with this one among them, to build a baseline from: a given one, the installed or a downloaded one.

    It is downloaded from the mirror with this address, or, if that is None, from the system's own.
    """
    downloaded = os.path.join(OUT, "root") + INSTALLED_CRATES
    for folder in [given] if given else [INSTALLED_CRATES, downloaded]:
        if crate_version(crate, folder):
            return os.path.abspath(folder)
    if given:
        raise SystemExit(f"{given} has no {crate}")
    return download_crates(address or mirror())


def baseline(crates):
    """Builds the baseline from a folder of crates; returns the program's path."""
    return build(os.path.join(HERE, "baseline"), "baseline", crates)


def build(source, name, crates):
    """Builds the program of this name that has its source in a folder, from a folder of crates; returns the program's path."""
    version = globset_version(crates)
    say(f"Building the {name} with globset {version}")
    project = os.path.join(OUT, f"{name}-{version}")
    shutil.rmtree(project, ignore_errors=True)
    shutil.copytree(source, project)
    target = os.path.join(OUT, "target")
    run(
        [
            "cargo", "build", "--quiet", "--release", "--offline", "--target-dir", target,
            "--config", 'source.crates-io.replace-with="folder"',
            "--config", f'source.folder.directory="{crates}"',
        ],
        cwd=project,
    )
    return os.path.join(target, "release", name)


def globsift():
    """The program of this repository, which is proved and built first if there is none yet; returns its path."""
    program = os.path.join(PROGRAM_CRATE, "out", "globsift")
    if not os.path.exists(program):
        say("Proving and building globsift, which takes some minutes")
        # The exit status is 1, as no line matches.
        subprocess.run(["rt", "run", "--", "*"], cwd=PROGRAM_CRATE, stdin=subprocess.DEVNULL, stdout=sys.stderr)
    if not os.path.exists(program):
        raise SystemExit("globsift could not be built")
    return program


def library(given):
    """The folder of the C library: a given one, or one that is made from the archive of `rt lib`."""
    if given:
        return os.path.abspath(given)
    folder = os.path.join(OUT, "library")
    run([os.path.join(os.path.dirname(HERE), "bindings", "c", "build"), folder], stdout=sys.stderr)
    return folder


def pair(settings):
    """The names and the files of the programs, and a sentence about the baseline."""
    ours = settings.program or globsift()
    if settings.without_baseline:
        return {"globsift": ours}, "The baseline was not measured."
    crates = find_crates(settings.crates, settings.mirror)
    both = {"Baseline": baseline(crates), "globsift": ours}
    return both, f"The baseline has globset {globset_version(crates)}."


def commit():
    """The commit of this repository, with a word if files differ from it."""
    def git(*words):
        return subprocess.run(["git", *words], cwd=HERE, capture_output=True, text=True).stdout.strip()

    changed = " with changes" if git("status", "--porcelain", "--", "../crates") else ""
    return git("rev-parse", "--short", "HEAD") + changed
