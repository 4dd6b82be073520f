"""Checks of a crate with some of its texts changed, by the toolchain's command rattle, over what an
earlier check of it kept; and builds of a program for another processor.

The words are those with which rt checks a crate. Libraries of the repository are taken as they were
built: crates/NAME/out/rlib/NAME.rlib below a folder.
"""
import os
import pathlib
import shutil
import subprocess
import tempfile

RT = os.environ.get("RT", "rt")
PARTS = ("src", "specs", "proofs")


def kit():
    """The toolchain's folder, in which bin/rt lies."""
    found = shutil.which(RT)
    if not found:
        raise SystemExit(f"there is no command {RT}")
    return pathlib.Path(found).resolve().parent.parent


def crates_of(top):
    """Each crate that crates.txt names, with those that it stands on, lowest first."""
    lines = (line.split("#")[0].strip() for line in (top / "crates.txt").read_text().splitlines())
    return {name.split()[0]: below.split() for name, _, below in (line.partition(":") for line in lines if line)}


def below(crates, name):
    """The repository's crates that this one stands on, each after those that it stands on."""
    found = {}
    for it in crates[name]:
        if it in crates:
            found |= dict.fromkeys([*below(crates, it), it])
    return list(found)


def library(top, name):
    return top / "crates" / name / "out" / "rlib" / f"{name}.rlib"


class Prover:
    """Checks the crates of a folder over the libraries that were built there."""

    def __init__(self, top):
        self.top, self.kit, self.crates = top, kit(), crates_of(top)

    def lacking(self, crate):
        """The libraries below the crate that aren't built."""
        return [it for it in below(self.crates, crate) if not (library(self.top, it) / "format").exists()]

    def words(self, crate):
        root = "src/main.rt" if (self.top / "crates" / crate / "src" / "main.rt").exists() else "src/lib.rt"
        words = ["--crate-name", crate, root]
        for it in self.crates[crate]:
            path = library(self.top, it) if it in self.crates else self.kit / "rlibs" / f"{it}.rlib"
            words += ["--extern", f"{it}={path}"]
        words += ["--extern", f"std={self.kit}/rlibs/std.rlib", "-L", f"dependency={self.kit}/rlibs"]
        for it in below(self.crates, crate):
            words += ["-L", f"dependency={library(self.top, it).parent}"]
        logic = self.kit / "rattle" / "logic" / "antt-project.json"
        return [
            *words,
            "--antt-project",
            str(logic),
            "--logic-built",
            f"{self.kit}/logic_built",
            "--jobs",
            "1",
            "--links",
            f"{crate}=",
        ]

    def check(self, crate, texts, seed):
        """Checks the crate with these texts, by their paths in it, in place of its own, over
        what lies in the folder `seed`, in which what is proved stays. Gives the status, what
        was said, and the seconds of processor."""
        with tempfile.TemporaryDirectory(prefix="crushcalc-edits-") as room, tempfile.TemporaryFile() as said:
            room = pathlib.Path(room)
            for part in PARTS:
                if (self.top / "crates" / crate / part).is_dir():
                    shutil.copytree(self.top / "crates" / crate / part, room / part)
            for path, text in texts.items():
                (room / path).write_text(text, encoding="utf-8")
            words = [self.kit / "bin" / "rattle", "check", *self.words(crate), "--incremental", seed]
            running = subprocess.Popen(words, cwd=room, stdin=subprocess.DEVNULL, stdout=said, stderr=subprocess.STDOUT)
            # subprocess tells no times of one child
            _, status, used = os.wait4(running.pid, 0)
            running.returncode = os.waitstatus_to_exitcode(status)
            said.seek(0)
            return running.returncode, said.read().decode(errors="replace"), used.ru_utime + used.ru_stime

    def program(self, crate, cpu, to):
        """Proves the crate of a program for this processor, over the libraries that are built, and
        builds it, as rt does. Gives the status and what was said."""
        toolchain = ["--toolchain", f"{self.kit}/toolchain"]
        steps = (
            [
                f"{self.kit}/bin/rattle",
                "build",
                *self.words(crate),
                "--cpu",
                cpu,
                *toolchain,
                "--backend",
                "llvm",
                "-o",
                f"{to}.o",
            ],
            [
                f"{self.kit}/bin/rattle-link",
                "--target",
                "x86_64-unknown-linux-gnu",
                *toolchain,
                "-o",
                str(to),
                f"{to}.o",
                f"{self.kit}/c/libos_c.a",
                f"{self.kit}/c/liblibc_c.a",
            ],
        )
        for words in steps:
            done = subprocess.run(
                words,
                cwd=self.top / "crates" / crate,
                stdin=subprocess.DEVNULL,
                stdout=subprocess.PIPE,
                stderr=subprocess.STDOUT,
                text=True,
                errors="replace",
            )
            if done.returncode:
                break
        return done.returncode, done.stdout


def linked(seed, to):
    """Copies a seed, what was proved by links: a check replaces such a file and changes none."""

    def copy(one, other):
        return os.link(one, other) if one.endswith(".oantt") else shutil.copy2(one, other)

    shutil.copytree(seed, to, symlinks=True, copy_function=copy)
