"""The Rattle kit, the crates of this repository, and the words by which the kit's checker reads one of them."""
import os
import shutil
import subprocess
from collections.abc import Iterable


# The memory for which a check is counted, in kB
OF_A_CHECK = 3_000_000


class CannotCheck(Exception):
    """The checker can't be asked, with the reason."""


def checks_at_once() -> int:
    """How many checks this machine holds at once: one for each processor, as far as there is memory for each."""
    with open("/proc/meminfo", encoding="ascii") as it:
        free = next(int(line.split()[1]) for line in it if line.startswith("MemAvailable:"))
    return max(1, min(len(os.sched_getaffinity(0)), free // OF_A_CHECK))


class Kit:
    """The Rattle kit that the command `rt` belongs to."""

    def __init__(self) -> None:
        if not shutil.which("rt"):
            raise CannotCheck("the command rt of the Rattle kit is not installed")
        page = subprocess.run(["rt", "doc"], capture_output=True, text=True, check=True).stdout
        self.folder = os.path.dirname(page.strip())
        self.checker = f"{self.folder}/bin/rattle"
        self.toolchain = f"--toolchain={self.folder}/toolchain"

    def identity(self) -> str:
        """The line by which the kit names itself."""
        return subprocess.run(["rt", "version"], capture_output=True, text=True, check=True).stdout.strip()

    def libraries(self, names: Iterable[str]) -> list[str]:
        """The words by which the checker finds these libraries of the kit."""
        found = [f"--extern={it}={self.folder}/rlibs/{it}.rlib" for it in ("std", *names)]
        return [*found, f"-Ldependency={self.folder}/rlibs"]

    def logic(self) -> str:
        """The word by which a check finds what is proved of the logic itself."""
        return f"--logic-built={self.folder}/logic_built"

    def link_words(self, made: str, program: str) -> list[str]:
        """The command that links a compiled program."""
        words = ["--target", "x86_64-unknown-linux-gnu", "--toolchain", f"{self.folder}/toolchain", "-o", program, made]
        return [f"{self.folder}/bin/rattle-link", *words, f"{self.folder}/c/libos_c.a", f"{self.folder}/c/liblibc_c.a"]


class Crates:
    """The crates that a repository's crates.txt names, and what each stands on. `built` is the folder below a crate's
    own in which its built library lies."""

    def __init__(self, top: str, built: str) -> None:
        self.top, self.built = top, built
        self.uses: dict[str, list[str]] = {}
        with open(f"{top}/crates.txt", encoding="utf-8") as it:
            for line in it:
                name, colon, uses = line.partition("#")[0].partition(":")
                if colon:
                    self.uses[name.split()[0]] = uses.split()

    def folder(self, name: str) -> str:
        return f"{self.top}/crates/{name}"

    def is_program(self, name: str) -> bool:
        return os.path.isfile(f"{self.folder(name)}/src/main.rt")

    def library(self, name: str) -> str:
        """Where the built library of a crate lies."""
        return f"{self.folder(name)}/{self.built}/{name}.rlib"

    def own(self, name: str) -> list[str]:
        """The crates of the repository that a crate names."""
        return [it for it in self.uses[name] if it in self.uses]

    def below(self, name: str) -> list[str]:
        """The crates of the repository that a crate stands on, each once, after those that it stands on itself."""
        found: dict[str, None] = {}
        for it in self.own(name):
            found |= dict.fromkeys([*self.below(it), it])
        return [*found]

    def words(self, name: str, kit: Kit) -> list[str]:
        """The words by which the checker reads a crate in the current folder, over the built libraries below it."""
        root = "src/main.rt" if self.is_program(name) else "src/lib.rt"
        of_kit = [it for it in self.uses[name] if it not in self.uses]
        words = [f"--crate-name={name}", root, *kit.libraries(of_kit)]
        words += [f"--extern={it}={self.library(it)}" for it in self.own(name)]
        words += [f"-Ldependency={os.path.dirname(self.library(it))}" for it in self.below(name)]
        return [*words, f"--antt-project={kit.folder}/rattle/logic/antt-project.json", f"--links={name}="]
