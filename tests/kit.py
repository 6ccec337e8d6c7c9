"""kit.py [REPOSITORY]: the crates of a repository as the kit's own prover takes them.

rt ci proves every crate and leaves its libraries in crates/NAME/out/rlib, but it makes no static library, and of an edit it tells one error alone. Both are asked
here of the prover that rt runs (rattle check --help, rattle build --help), over the libraries that stand there, so that none of them is proved again.

kit.py archive NAME     proves and builds a static library, crates/NAME/out/libNAME.a
"""
import os
import pathlib
import shutil
import subprocess
import sys

PARTS = ("src", "specs", "proofs")


def kit():
    found = shutil.which("rt")
    if not found:
        sys.exit("kit.py: no rt is here: the Rattle kit is missing (README.md, What you need)")
    return pathlib.Path(found).resolve().parent.parent


def files_of(folder):
    return sorted(f for part in PARTS for f in (folder / part).rglob("*") if f.is_file())


class Crate:
    def __init__(self, repository, name, is_static, named):
        self.name, self.is_static, self.folder = name, is_static, repository.root / "crates" / name
        self.named, self.repository = named, repository
        self.rlib = self.folder / "out/rlib" / (name + ".rlib")

    def libraries(self):
        """The crates of the repository that it names, and those of the kit."""
        of = self.repository.crates
        return [of[n] for n in self.named if n in of], ["std", *[n for n in self.named if n not in of]]

    def below(self):
        found = []
        for library in self.libraries()[0]:
            found += [it for it in [*library.below(), library] if it not in found]
        return found

    def is_over_what_stands(self):
        """Do the libraries below stand, all made by rt ci or all by other commands of rt, and none older than its files?"""
        below = self.below()
        if not all((it.rlib / "format").is_file() for it in below):
            return False
        if len({(it.rlib.parent / "stamp").exists() for it in below}) > 1:
            return False
        # rt ci gives a library that it kept by links: the folder has the time of the run
        return all(f.stat().st_mtime <= it.rlib.stat().st_mtime for it in below for f in files_of(it.folder))

    def words(self, command):
        """The prover's command, for the folder that it is started in."""
        own, of_kit = self.libraries()
        top, main = kit(), "src/main.rt" if (self.folder / "src/main.rt").is_file() else "src/lib.rt"
        words = [str(top / "bin/rattle"), command, "--crate-name", self.name, main]
        for name in of_kit:
            words += ["--extern", "%s=%s" % (name, top / "rlibs" / (name + ".rlib"))]
        words += ["-L", "dependency=%s" % (top / "rlibs")]
        for library in own:
            words += ["--extern", "%s=%s" % (library.name, library.rlib)]
        for library in self.below():
            words += ["-L", "dependency=%s" % library.rlib.parent]
        words += ["--antt-project", str(top / "rattle/logic/antt-project.json"), "--logic-built", str(top / "logic_built")]
        words += ["--links", self.name + "=", *(["--crate-type", "staticlib"] if self.is_static else [])]
        return words

    def make_libraries(self):
        """Has rt prove and build what is missing below; its lines go to standard error."""
        for library in self.libraries()[0]:
            if subprocess.run(["rt", "lib"], cwd=library.folder, stdin=subprocess.DEVNULL, stdout=sys.stderr).returncode:
                return False
        return True

    def build_archive(self):
        file = self.folder / "out" / ("lib%s.a" % self.name)
        file.parent.mkdir(exist_ok=True)
        if self.is_over_what_stands():
            words = [*self.words("build"), "--jobs", "2", "--toolchain", str(kit() / "toolchain"), "--backend", "llvm", "-o", str(file)]
            if subprocess.run(words, cwd=self.folder, stdin=subprocess.DEVNULL, stdout=sys.stderr).returncode == 0:
                return True
        return subprocess.run(["rt", "lib"], cwd=self.folder, stdin=subprocess.DEVNULL, stdout=sys.stderr).returncode == 0


class Repository:
    def __init__(self, root):
        self.root, self.crates = pathlib.Path(root).resolve(), {}
        for line in (self.root / "crates.txt").read_text(encoding="utf-8").splitlines():
            line = line.partition("#")[0].strip()
            if line:
                head, _, named = line.partition(":")
                name, *kind = head.split()
                self.crates[name] = Crate(self, name, "staticlib" in kind, named.split())


def main(words):
    if len(words) != 2 or words[0] != "archive":
        sys.exit(__doc__)
    repository = Repository(pathlib.Path(__file__).resolve().parent.parent)
    return 0 if repository.crates[words[1]].build_archive() else 1


if __name__ == "__main__":
    sys.exit(main(sys.argv[1:]))
