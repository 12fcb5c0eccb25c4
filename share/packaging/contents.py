"""What a release contains, and where each file is put."""
import os
import shutil
from collections import namedtuple

import completions
import library
import manual
import provenance
from checkout import TOP, call, files, product

# The programs as they are built, and the archive from which the library is made.
Products = namedtuple("Products", "byzlab surveyor capi")
# Where things go that not every place has in the same folder: the pages with the examples, the libraries, the folder that
# the pkg-config file names, and the completion for zsh.
Layout = namedtuple("Layout", "pages lib prefix zsh")

FOLDER = Layout(pages=".", lib="lib", prefix="${pcfiledir}/../..", zsh="share/zsh/site-functions")
PREFIX = FOLDER._replace(pages="share/doc/byzlab")
DEBIAN = Layout("share/doc/byzlab", "lib/x86_64-linux-gnu", "/usr", "share/zsh/vendor-completions")

TOOLS = {"git": "git", "strip": "binutils", "objdump": "binutils", **library.TOOLS}
PROGRAMS = {"byzlab": "bin/byzlab", "surveyor": "bin/byzlab-survey"}
# The server of the laboratory in a browser, and its page.
LABORATORY = {"share/serve": "share/byzlab/serve", "share/lab": "share/byzlab/lab"}
PAGES = ("README.md", "CHANGELOG.md", "CONTRIBUTING.md", "SECURITY.md", "docs", "examples")
COPIES = {
    "share/byzlab.h": "include/byzlab.h",
    "share/answers.schema.json": "share/byzlab/answers.schema.json",
    "share/byzlab.1": "share/man/man1/byzlab.1",
    "share/byzlab-serve": "bin/byzlab-serve",
    "share/byzlab-serve.1": "share/man/man1/byzlab-serve.1",
    "share/byzlab.bash": "share/bash-completion/completions/byzlab",
}
LINKS = {
    "share/man/man1/byzlab-survey.1": "byzlab.1",
    "share/bash-completion/completions/byzlab-survey": "byzlab",
    "share/bash-completion/completions/byzlab-serve": "byzlab",
}


def products():
    """Proves and builds what is not built yet."""
    return Products(product("byzlab", "byzlab"), product("surveyor", "surveyor"), product("capi", "libcapi.a"))


def binaries(layout):
    """Returns the paths of the programs and of the shared library."""
    return [*PROGRAMS.values(), os.path.join(layout.lib, library.soname())]


def fill(tree, made, layout, is_changed=False):
    """Puts all files of a release into an empty folder. `is_changed` says whether the checkout differs from its commit."""
    copied = {name: os.path.normpath(os.path.join(layout.pages, name)) for name in files(*PAGES)}
    served = {name: target + name[len(source) :] for source, target in LABORATORY.items() for name in files(source)}
    for source, target in {**copied, **COPIES, **served}.items():
        shutil.copyfile(os.path.join(TOP, source), room(tree, target))
    for name, target in PROGRAMS.items():
        call(["strip", "--strip-all", "-o", room(tree, target), getattr(made, name)])
    library.install(tree, made.capi, layout.prefix, layout.lib)
    glibc = provenance.needed_glibc([os.path.join(tree, path) for path in binaries(layout)])
    fish = "share/fish/vendor_completions.d"
    written = {
        os.path.join(layout.zsh, "_byzlab"): completions.zsh(),
        os.path.join(fish, "byzlab.fish"): completions.fish(),
        **{os.path.join(fish, f"{name}.fish"): completions.fish_other(name) for name in completions.OTHERS},
        os.path.join(layout.pages, "manual.html"): manual.html(),
        os.path.join(layout.pages, "PROVENANCE"): provenance.text(made, glibc, is_changed),
    }
    for target, text in written.items():
        with open(room(tree, target), "w", encoding="utf-8") as file:
            file.write(text)
    for target, other in LINKS.items():
        os.symlink(other, room(tree, target))
    set_modes(tree)


def room(tree, target):
    """Returns the path of a file in the folder, whose own folder is made."""
    path = os.path.normpath(os.path.join(tree, target))
    os.makedirs(os.path.dirname(path), exist_ok=True)
    return path


def set_modes(tree):
    """Lets everybody read all files and run the programs, whatever the umask is."""
    for at, _, names in os.walk(tree):
        os.chmod(at, 0o755)
        for name in names:
            path = os.path.join(at, name)
            if not os.path.islink(path):
                os.chmod(path, 0o755 if os.path.basename(at) == "bin" else 0o644)
