"""How the toolchain's prover is called for a crate: over the libraries that `rt ci` or `rt check` has left in out/ of the crates below."""
import pathlib
import shutil

import prices

TOP = pathlib.Path(__file__).resolve().parent.parent


def kit():
    """The folder of the toolchain, or None without one."""
    rt = shutil.which("rt")
    return pathlib.Path(rt).resolve().parent.parent if rt else None


def below(crate, uses):
    """The crates of the repository that a crate stands on, each behind those that it uses."""
    found = []

    def take(name):
        for other in uses[name]:
            if other in uses and other not in found:
                take(other)
                found.append(other)

    take(crate)
    return found


def library_of(name):
    return TOP / "crates" / name / "out" / "rlib" / f"{name}.rlib"


def missing_for(crate):
    """The crates below this one whose libraries aren't there."""
    return [name for name in below(crate, prices.crates_of(TOP)) if not library_of(name).is_dir()]


def check_of(crate, flags):
    """The words by which a crate is checked, in a folder that has its sources."""
    uses, toolchain = prices.crates_of(TOP), kit()
    head = "main" if (TOP / "crates" / crate / "src" / "main.rt").is_file() else "lib"
    words = [toolchain / "bin" / "rattle", "check", "--crate-name", crate, f"src/{head}.rt"]
    for name in ["std", *(other for other in uses[crate] if other not in uses)]:
        words += ["--extern", f"{name}={toolchain}/rlibs/{name}.rlib"]
    words += ["-L", f"dependency={toolchain}/rlibs"]
    for name in (other for other in uses[crate] if other in uses):
        words += ["--extern", f"{name}={library_of(name)}"]
    for name in below(crate, uses):
        words += ["-L", f"dependency={library_of(name).parent}"]
    words += ["--antt-project", toolchain / "rattle" / "logic" / "antt-project.json", "--logic-built", toolchain / "logic_built"]
    return [str(word) for word in [*words, "--jobs", "1", *flags]]
