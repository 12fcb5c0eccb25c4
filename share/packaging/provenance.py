"""The text of the file PROVENANCE: from what a release was made, by what it was proved, and how to make it again."""
import hashlib
import os
import platform
import re
import shutil
import zlib

from checkout import TOP, call, commit, version

# The tools on whose versions the bytes depend.
TOOLS = (["cc", "--version"], ["ld", "--version"], ["dpkg-deb", "--version"])


def needed_glibc(paths):
    """Returns the version of glibc that these files need: the highest that one of their symbols has."""
    found = [number for path in paths for number in re.findall(r"\bGLIBC_(\d+(?:\.\d+)+)", call(["objdump", "-T", path]))]
    return max(found or ["2.0"], key=lambda number: [int(part) for part in number.split(".")])


def needed_libraries(paths):
    """Returns the names of the shared libraries that these files load."""
    return sorted({name for path in paths for name in re.findall(r"^ +NEEDED +(\S+)", call(["objdump", "-p", path]), re.M)})


def sum_of(path):
    with open(path, "rb") as file:
        return hashlib.sha256(file.read()).hexdigest()


def proved(paths):
    """Returns the toolchains that proved these products, and the verdicts on their crates, each once. share/prove keeps both."""
    kits, verdicts = {}, {}
    for path in paths:
        try:
            with open(os.path.join(os.path.dirname(path), "byzlab.proved"), encoding="utf-8") as file:
                kit, *lines = file.read().splitlines()
        except OSError:
            kit, lines = "not recorded when it was built", []
        kits[kit] = None
        verdicts.update((line, None) for line in lines)
    return list(kits), list(verdicts)


def indented(lines):
    return "".join(f"    {line}\n" for line in lines or ["-"])


def text(made, glibc, is_changed=False):
    """Returns the text. `made` are the products, and `glibc` is the version that they need."""
    name, _ = commit()
    kits, verdicts = proved(made)
    sums = [f"{sum_of(path)}  {os.path.relpath(path, TOP)}" for path in made]
    tools = [call(words).splitlines()[0] for words in TOOLS if shutil.which(words[0])]
    tools.append(f"Python {platform.python_version()}, zlib {zlib.ZLIB_RUNTIME_VERSION}")
    return f"""byzlab {version()} for linux-x86_64

commit: {name}{' with changes that are not committed' if is_changed else ''}
toolchain: {'; '.join(kits)}
needs: Linux on x86-64, glibc {glibc} or later

The toolchain's last line on each crate when it was proved ("-" if none was kept; docs/TRUSTED.md says what is proved):

{indented(verdicts)}
What was built from them, by sha256 (the programs are then stripped, and the library is made of the archive):

{indented(sums)}
To make the same bytes again, clone the repository, check out the commit, put the toolchain's bin/ on your path, and call
`./byzlab release`. Other versions of these tools may give other bytes. The lines on the crates above also say how each was proved,
so they are other ones if a proof was continued or kept (BYZLAB_KEEP):

{indented(tools)}"""
