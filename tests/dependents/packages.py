"""Debian's packages of crates, and sources of programs, downloaded into a folder without being installed."""

import glob
import os
import shutil
import subprocess
import sys

HERE = os.path.dirname(os.path.abspath(__file__))
TOP = os.path.dirname(os.path.dirname(HERE))
OUT = os.path.join(HERE, "out")

sys.dont_write_bytecode = True
sys.path.append(os.path.join(TOP, "bench"))

import programs  # the benchmark's, which knows where a mirror of Debian is


def say(text):
    print(text, file=sys.stderr, flush=True)


def versions(folder, crate):
    """The versions of a crate in a folder of crates, ascending."""
    names = [os.path.basename(path) for path in glob.glob(os.path.join(folder, f"{crate}-[0-9]*"))]
    return sorted((name[len(crate) + 1 :] for name in names), key=lambda version: [int(part) for part in version.split(".")])


class Release:
    """A release of Debian, such as `sid`, from a mirror."""

    def __init__(self, name, address):
        self.name, self.address = name, address
        self.folder = os.path.join(OUT, name)
        self.updated = False

    def apt_get(self, *words, **settings):
        apt = os.path.join(self.folder, "apt")
        options = {
            "Dir::State::lists": f"{apt}/lists",
            "Dir::State::status": f"{apt}/status",
            "Dir::Cache": f"{apt}/cache",
            "Dir::Etc::sourcelist": f"{apt}/sources.list",
            "Dir::Etc::sourceparts": "/dev/null",
            "APT::Sandbox::User": "root",
        }
        flags = [word for name, value in options.items() for word in ("-o", f"{name}={value}")]
        settings.setdefault("stdout", sys.stderr)
        return subprocess.run(["apt-get", "-q"] + flags + list(words), check=True, **settings)

    def update(self):
        """Fetches the lists of packages, once."""
        if self.updated:
            return
        apt = os.path.join(self.folder, "apt")
        for folder in (f"{apt}/lists/partial", f"{apt}/cache/archives/partial"):
            os.makedirs(folder, exist_ok=True)
        # Empty, so that apt takes no package for installed.
        open(f"{apt}/status", "w").close()
        with open(f"{apt}/sources.list", "w") as file:
            for kind in ("deb", "deb-src"):
                file.write(f"{kind} {self.address} {self.name} main\n")
        self.apt_get("update")
        self.updated = True

    def stamp(self, packages):
        """The file that has the names of all packages that these need, once they are unpacked."""
        names = [name[len("librust-") : -len("-dev")] for name in packages]
        return os.path.join(self.folder, "-".join(["stamp"] + names)[:200])

    def crates(self, packages):
        """The folder of the crates in these packages and in those that they need."""
        root, archives = os.path.join(self.folder, "root"), os.path.join(self.folder, "packages")
        os.makedirs(archives, exist_ok=True)
        stamp = self.stamp(packages)
        if not os.path.exists(stamp):
            self.update()
            words = ("--simulate", "--no-install-recommends", "install", *packages)
            wanted = self.apt_get(*words, stdout=subprocess.PIPE, text=True).stdout
            names = [line.split()[1] for line in wanted.splitlines() if line.startswith("Inst librust-")]
            missing = [name for name in names if not glob.glob(f"{archives}/{name}_*.deb")]
            if missing:
                self.apt_get("download", *missing, cwd=archives)
            for name in names:
                subprocess.run(["dpkg-deb", "--extract", self.archive(name), root], check=True)
            with open(stamp, "w") as file:
                file.writelines(f"{name}\n" for name in names)
        return root + programs.INSTALLED_CRATES

    def programs(self, packages, root):
        """Unpacks packages that need no others than these."""
        archives = os.path.join(self.folder, "packages")
        os.makedirs(archives, exist_ok=True)
        missing = [name for name in packages if not glob.glob(f"{archives}/{name}_*.deb")]
        if missing:
            self.update()
            self.apt_get("download", *missing, cwd=archives)
        for name in packages:
            subprocess.run(["dpkg-deb", "--extract", self.archive(name), root], check=True)

    def unpacked(self, packages, root):
        """A folder of the crates in these packages and in those that they need, and no others."""
        self.crates(packages)
        shutil.rmtree(root, ignore_errors=True)
        with open(self.stamp(packages)) as file:
            for name in file.read().split():
                subprocess.run(["dpkg-deb", "--extract", self.archive(name), root], check=True)
        return root + programs.INSTALLED_CRATES

    def archive(self, name):
        """The file of a downloaded package."""
        return glob.glob(f"{self.folder}/packages/{name}_*.deb")[0]

    def source(self, name):
        """The folder of a package's source, with Debian's patches."""
        folder = os.path.join(self.folder, "sources", name)
        found = glob.glob(f"{folder}/*/Cargo.toml")
        if not found:
            self.update()
            shutil.rmtree(folder, ignore_errors=True)
            os.makedirs(folder)
            self.apt_get("source", name, cwd=folder)
            found = glob.glob(f"{folder}/*/Cargo.toml")
        return os.path.dirname(found[0])


def mirror(address):
    """The address of a mirror of Debian: the given one, or that of this system's list of sources."""
    return address or programs.mirror()


def linked(name, folders):
    """A folder in `OUT` with links to all crates of some folders; a crate that two folders have is the first one's."""
    folder = os.path.join(OUT, name)
    shutil.rmtree(folder, ignore_errors=True)
    os.makedirs(folder)
    for crates in folders:
        for crate in sorted(os.listdir(crates)):
            if not os.path.lexists(f"{folder}/{crate}"):
                os.symlink(f"{crates}/{crate}", f"{folder}/{crate}")
    return folder
