"""The library for C: libbyzlab.a and libbyzlab.so, made of the archive of the crate capi, and their files for pkg-config and
CMake."""
import os
import re
import shutil

from checkout import TOP, Failure, call, product, read, toolchain, version

EXPORTS = ["byzlab_verify", "byzlab_run", "byzlab_run_many", "byzlab_load", "byzlab_run_loaded", "byzlab_unload",
           "byzlab_explain", "byzlab_disassemble", "byzlab_object", "byzlab_message", "byzlab_version"]
TOOLS = {"cc": "gcc", "ld": "binutils", "objcopy": "binutils", "ar": "binutils"}
# The files for pkg-config. The second has the name under which 1.0.0 is found.
CONFIGS = {
    "byzlab.pc": """prefix={prefix}
includedir=${{prefix}}/include
libdir=${{prefix}}/{lib}

Name: byzlab
Description: A proved verifier and machine of BPF programs
Version: {version}
Cflags: -I${{includedir}}
Libs: -L${{libdir}} -lbyzlab
""",
    "byzlab_sandbox.pc": """Name: byzlab_sandbox
Description: The older name of byzlab
Version: {version}
Requires: byzlab
""",
}
# The files for CMake in share/cmake, in which the names between @ signs are replaced.
CMAKE = ("byzlab-config.cmake", "byzlab-config-version.cmake")


def soname():
    """Returns the name by which programs ask for the shared library. It has the first number of the version, since only a
    new first number may break programs."""
    return f"libbyzlab.so.{version().split('.')[0]}"


def archive():
    """Returns the archive of the crate capi: the one that BYZLAB_ARCHIVE names, or else the one that is proved and built."""
    return os.environ.get("BYZLAB_ARCHIVE") or product("capi", "libcapi.a")


def glue():
    """Returns the toolchain's object by which the library calls malloc, realloc and free."""
    found = os.path.join(toolchain(), "c", "liblibc_c.a")
    if not os.path.exists(found):
        raise Failure(f"the toolchain has no {found}, its part in C")
    return found


def build(folder, capi):
    """Makes libbyzlab.a, one object whose only global names are the exports, and the shared library of it. Returns both."""
    whole, lone = os.path.join(folder, "whole.o"), os.path.join(folder, "byzlab.o")
    wanted = [word for name in EXPORTS for word in ("-u", name)]
    call(["ld", "-r", "--gc-sections", *wanted, "-o", whole, capi, glue()])
    kept = [f"--keep-global-symbol={name}" for name in EXPORTS]
    call(["objcopy", "--strip-debug", "--strip-unneeded", *kept, whole, lone])
    static, shared = os.path.join(folder, "libbyzlab.a"), os.path.join(folder, soname())
    for path in (static, shared):
        if os.path.lexists(path):
            os.remove(path)
    call(["ar", "rcsD", static, lone])
    hardened = ["-Wl,--gc-sections", "-Wl,-z,defs", "-Wl,-z,noexecstack", "-Wl,-z,relro,-z,now"]
    # Nothing runs at its start, and no page of the file is filled up.
    small = ["-nostartfiles", "-Wl,-z,noseparate-code", "-Wl,--build-id=none"]
    call(["cc", "-shared", f"-Wl,-soname,{soname()}", *hardened, *small, "-s", "-o", shared, lone])
    os.remove(whole)
    os.remove(lone)
    return static, shared


def configs(prefix, lib):
    """Returns the texts of the files for pkg-config and CMake by their paths in the folder of the libraries."""
    found = {os.path.join("pkgconfig", name): text.format(prefix=prefix, lib=lib, version=version()) for name, text in CONFIGS.items()}
    folder = os.path.join("cmake", "byzlab")
    include = os.path.relpath("include", os.path.join(lib, folder))
    values = {"include": include, "soname": soname(), "version": version(), "major": version().split(".")[0]}
    for name in CMAKE:
        found[os.path.join(folder, name)] = re.sub(r"@(\w+)@", lambda mark: values[mark[1]], read(os.path.join("share", "cmake", name)))
    return found


def install(tree, capi, prefix, lib="lib"):
    """Puts into a folder the libraries, the header, the man page, and the files for pkg-config and CMake. `prefix` is the folder
    that the pkg-config file names. Returns the paths of both libraries."""
    libraries, include, pages = os.path.join(tree, lib), os.path.join(tree, "include"), os.path.join(tree, "share", "man", "man3")
    for folder in (libraries, include, pages):
        os.makedirs(folder, exist_ok=True)
    static, shared = build(libraries, capi)
    plain = os.path.join(libraries, "libbyzlab.so")
    if os.path.lexists(plain):
        os.remove(plain)
    os.symlink(os.path.basename(shared), plain)
    shutil.copyfile(os.path.join(TOP, "share", "byzlab_sandbox.h"), os.path.join(include, "byzlab_sandbox.h"))
    shutil.copyfile(os.path.join(TOP, "share", "byzlab_sandbox.3"), os.path.join(pages, "byzlab_sandbox.3"))
    for name, text in configs(prefix, lib).items():
        path = os.path.join(libraries, name)
        os.makedirs(os.path.dirname(path), exist_ok=True)
        with open(path, "w", encoding="utf-8") as file:
            file.write(text)
    return static, shared
