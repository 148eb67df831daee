"""Makes packages of the program and the library, from what the folder dist/ has. Given the same files, each has the same bytes."""
import base64
import email.utils
import functools
import glob
import gzip
import hashlib
import io
import os
import re
import shutil
import subprocess
import sys
import sysconfig
import tarfile
import tempfile
import zipfile

HERE = os.path.dirname(os.path.abspath(__file__))
ROOT = os.path.dirname(HERE)
LIBRARIES = "usr/lib/x86_64-linux-gnu"
# Where the archive has what is for its own use.
OWN = "share/urlpattern"
# The packages have no time of their own: each file in them is of this second, the first of 2026.
TIME = 1767225600
MAINTAINER = "Niscorzu maintainers <maintainers@users.noreply.niscorzu.example>"
ABOUT = "URL patterns, as those of browsers"
LONG = """ A pattern such as /users/:id says which URLs it matches, and captures parts of
 them. {promise}
 .
 This package has {what},
 for Linux on x86-64, with glibc {glibc} or later.
"""
PROVED = "Each result meets a written definition, as is proved."
UNPROVED = "This was compiled without proofs."
# What follows the version of a package for Debian: one of Debian's own would begin at 1, and be newer.
REVISION = "0.1"
# The changelog that each has beside that of the repository.
CHANGES = """urlpattern ({version}) unstable; urgency=medium

  * The changes of each version are in changelog.gz.

 -- {maintainer}  {time}
"""
# What Debian's Python package runs: modules are compiled once it is there, and the compiled ones go with it.
AFTER = "#!/bin/sh\nset -e\n[ \"$1\" != configure ] || ! command -v py3compile >/dev/null || py3compile -p python3-urlpattern\n"
BEFORE = "#!/bin/sh\nset -e\n! command -v py3clean >/dev/null || py3clean -p python3-urlpattern\n"


def version(dist):
    """The version of the packages: that of the library, marked if nothing was proved."""
    with open(f"{dist}/lib/pkgconfig/urlpattern.pc", encoding="utf-8") as it:
        number = re.search(r"^Version: (.*)$", it.read(), re.MULTILINE)[1]
    return number if is_proved(dist) else f"{number}+unproved"


def shared(dist):
    """The name of the shared object, such as liburlpattern.so.2."""
    return os.path.basename(glob.glob(f"{dist}/lib/liburlpattern.so.*")[0])


def least_glibc(path):
    """The oldest version of the C library that has what a file calls, as two numbers."""
    with open(path, "rb") as it:
        named = re.findall(rb"\0GLIBC_(\d+)\.(\d+)", it.read())
    return max((int(major), int(minor)) for major, minor in named) if named else (2, 2)


def is_proved(dist):
    return not os.path.exists(f"{dist}/UNPROVED")


def glibc(dist):
    """The oldest versions of the C library with which the program and the library run."""
    return ["{}.{}".format(*least_glibc(f"{dist}/{it}")) for it in ("bin/urlpat", f"lib/{shared(dist)}")]


def claims(dist, least):
    """What a package that needs this version of the C library says of itself."""
    with open(f"{HERE}/claims.txt", encoding="utf-8") as it:
        text = it.read().format(glibc=least)
    return text if is_proved(dist) else f"{UNPROVED} Nothing below is proved of it.\n\n{text}"


# ---- files


def write(path, text, mode=0o644):
    os.makedirs(os.path.dirname(path), exist_ok=True)
    with open(path, "wb") as it:
        it.write(text if isinstance(text, bytes) else text.encode())
    os.chmod(path, mode)


def copy(path, to, mode=0o644):
    with open(path, "rb") as it:
        write(to, it.read(), mode)


def files_in(folder, *parts):
    """The files of parts of a folder, in order."""
    return sorted(it for part in parts for it in glob.glob(f"{folder}/{part}/**", recursive=True) if os.path.isfile(it))


def digest_of(path, how):
    with open(path, "rb") as it:
        return hashlib.new(how, it.read()).hexdigest()


def packed(text):
    """A text as gzip packs it, without a time."""
    return gzip.compress(text if isinstance(text, bytes) else text.encode(), mtime=0)


@functools.lru_cache(maxsize=None)
def extension(*flags):
    """The extension of Python's package, which is linked to nothing, for each Python from 3.10 on; or None if the machine can build none."""
    include = sysconfig.get_path("include")
    has_lock = not sysconfig.get_config_var("Py_GIL_DISABLED")
    if not (shutil.which("cc") and os.path.exists(f"{include}/Python.h") and sys.version_info >= (3, 10) and has_lock):
        print("packages: there is no cc here, or no Python.h of Python 3.10 or later: Python's package is without its extension", flush=True)
        return None
    with tempfile.TemporaryDirectory() as room:
        words = ["cc", "-O2", "-shared", "-fPIC", "-nostdlib", "-s", *flags, f"-I{include}", f"-I{ROOT}/bindings/c"]
        subprocess.run([*words, f"{ROOT}/bindings/python/_quick.c", "-o", f"{room}/made"], check=True)
        with open(f"{room}/made", "rb") as it:
            return it.read()


def python_files():
    """The files of Python's package, by their names."""
    made = extension()
    files = {"_quick.abi3.so": made} if made else {}
    for path in (it for end in ("*.py", "*.pyi", "py.typed") for it in glob.glob(f"{ROOT}/bindings/python/urlpattern/{end}")):
        with open(path, "rb") as it:
            files[os.path.basename(path)] = it.read()
    return dict(sorted(files.items()))


def put_python_files(folder):
    for name, it in python_files().items():
        write(f"{folder}/urlpattern/{name}", it)


# ---- Debian's packages


def put_papers(root, name, dist, least):
    """What each package of Debian has on itself: its license, its changes and its claims."""
    folder = f"{root}/usr/share/doc/{name}"
    with open(f"{dist}/{OWN}/LICENSE", encoding="utf-8") as it:
        write(f"{folder}/copyright", it.read().replace("see LICENSE-APACHE", "see /usr/share/common-licenses/Apache-2.0"))
    with open(f"{ROOT}/CHANGELOG.md", encoding="utf-8") as it:
        write(f"{folder}/changelog.gz", packed(it.read()))
    changes = CHANGES.format(version=debian_version(dist), maintainer=MAINTAINER, time=email.utils.formatdate(TIME))
    write(f"{folder}/changelog.Debian.gz", packed(changes))
    write(f"{folder}/README.Debian", claims(dist, least))


def put_program(root, dist):
    copy(f"{dist}/bin/urlpat", f"{root}/usr/bin/urlpat", 0o755)
    for path in files_in(f"{dist}/share", "man", "bash-completion", "zsh", "fish"):
        # (zsh of Debian looks for what other packages complete in a folder of their own)
        name = os.path.relpath(path, f"{dist}/share").replace("site-functions", "vendor-completions")
        if name.startswith("man/"):
            with open(path, "rb") as it:
                write(f"{root}/usr/share/{name}.gz", packed(it.read()))
        else:
            copy(path, f"{root}/usr/share/{name}")


def put_library(root, dist):
    name = shared(dist)
    copy(f"{dist}/lib/{name}", f"{root}/{LIBRARIES}/{name}")
    number = name.rsplit(".", 1)[1]
    write(f"{root}/DEBIAN/shlibs", f"liburlpattern {number} liburlpattern{number} (>= {version(dist)})\n")
    write(f"{root}/DEBIAN/triggers", "activate-noawait ldconfig\n")


def put_development_files(root, dist):
    # (systems without documentation have no examples below share/doc)
    for path in files_in(dist, "include", f"{OWN}/rust", f"{OWN}/examples"):
        copy(path, f"{root}/usr/{os.path.relpath(path, dist)}")
    copy(f"{dist}/lib/liburlpattern.a", f"{root}/{LIBRARIES}/liburlpattern.a")
    with open(f"{dist}/lib/pkgconfig/urlpattern.pc", encoding="utf-8") as it:
        text = it.read().replace("${pcfiledir}/../..", "/usr").replace("${prefix}/lib", "${prefix}/" + LIBRARIES[4:])
    write(f"{root}/{LIBRARIES}/pkgconfig/urlpattern.pc", text)
    os.symlink(shared(dist), f"{root}/{LIBRARIES}/liburlpattern.so")


def put_python(root, dist):
    folder = f"{root}/usr/lib/python3/dist-packages"
    put_python_files(folder)
    os.symlink(f"../../../{LIBRARIES[8:]}/{shared(dist)}", f"{folder}/urlpattern/liburlpattern.so")
    write(f"{root}/DEBIAN/postinst", AFTER, 0o755)
    write(f"{root}/DEBIAN/prerm", BEFORE, 0o755)


def debian_version(dist):
    return f"{version(dist)}-{REVISION}"


def debian_packages(dist):
    """The packages of Debian: name, section, the C library that each needs and what else, what it is and has, and what puts its files into a folder."""
    library, (of_program, of_library) = f"liburlpattern{shared(dist).rsplit('.', 1)[1]}", glibc(dist)
    exactly = f"{library} (= {debian_version(dist)})"
    return [
        ("urlpat", "web", of_program, f"libc6 (>= {of_program})", ("program", "the program urlpat"), put_program),
        (library, "libs", of_library, f"libc6 (>= {of_library})", ("shared library", "the shared library"), put_library),
        ("liburlpattern-dev", "libdevel", of_library, f"{exactly}, libc6-dev", ("development files", "headers, a static library and a crate for Rust"), put_development_files),
        ("python3-urlpattern", "python", of_library, f"{exactly}, python3 (>= 3.8)", ("Python package", "the Python package urlpattern"), put_python),
    ]


def control_of(dist, name, section, least, needs, about, kilobytes):
    """What a package of Debian says of itself."""
    short, what = about
    long = LONG.format(promise=PROVED if is_proved(dist) else UNPROVED, what=what, glibc=least)
    lines = [f"Package: {name}", "Source: urlpattern", f"Version: {debian_version(dist)}", "Architecture: amd64", f"Section: {section}", "Priority: optional"]
    lines += ["Multi-Arch: same"] if section.startswith("lib") else []
    lines += [f"Installed-Size: {kilobytes}", f"Depends: {needs}", f"Maintainer: {MAINTAINER}", f"Description: {ABOUT} ({short})"]
    return "\n".join([*lines, long])


def make_debian(dist, folder):
    """Makes the packages of Debian, if its tool is here."""
    if not shutil.which("dpkg-deb"):
        print("packages: there is no dpkg-deb here, so that no package of Debian is made", flush=True)
        return
    for name, section, least, needs, about, put in debian_packages(dist):
        with tempfile.TemporaryDirectory() as root:
            os.chmod(root, 0o755)
            put(root, dist)
            put_papers(root, name, dist, least)
            paths = [it for it in files_in(root, "usr") if not os.path.islink(it)]
            write(f"{root}/DEBIAN/md5sums", "".join(f"{digest_of(it, 'md5')}  {os.path.relpath(it, root)}\n" for it in paths))
            kilobytes = sum(os.stat(it).st_size // 1024 + 1 for it in paths)
            write(f"{root}/DEBIAN/control", control_of(dist, name, section, least, needs, about, kilobytes))
            made = f"{folder}/{name}_{debian_version(dist)}_amd64.deb"
            # (which compression is usual differs among systems)
            words = ["dpkg-deb", "-Zxz", "--build", "--root-owner-group", root, made]
            subprocess.run(words, check=True, stdout=subprocess.DEVNULL, env=dict(os.environ, SOURCE_DATE_EPOCH=str(TIME)))


# ---- Python's wheel


def make_wheel(dist, folder):
    """Makes the wheel, in which the shared object lies beside the modules."""
    number, library = version(dist), f"{dist}/lib/{shared(dist)}"
    name, least = "niscorzu_urlpattern", least_glibc(library)
    # (pip before 20.3 knows the older name alone, which is that of glibc 2.17)
    systems = ["manylinux_{}_{}_x86_64".format(*least), *(["manylinux2014_x86_64"] if least <= (2, 17) else [])]
    tag = f"py3-none-{'.'.join(systems)}"
    about = [f"Name: {name.replace('_', '-')}", f"Version: {number}", f"Summary: {ABOUT}", "License: MIT", "Requires-Python: >=3.8"]
    files = {f"urlpattern/{it}": text for it, text in python_files().items()}
    files["urlpattern/liburlpattern.so"] = open(library, "rb").read()
    info = f"{name}-{number}.dist-info"
    files[f"{info}/METADATA"] = ("Metadata-Version: 2.1\n" + "\n".join(about) + "\nDescription-Content-Type: text/plain\n\n" + claims(dist, glibc(dist)[1])).encode()
    tags = "".join(f"Tag: py3-none-{it}\n" for it in systems)
    files[f"{info}/WHEEL"] = f"Wheel-Version: 1.0\nGenerator: urlpattern\nRoot-Is-Purelib: false\n{tags}".encode()
    for path in sorted(glob.glob(f"{dist}/{OWN}/LICENSE*")):
        files[f"{info}/licenses/{os.path.basename(path)}"] = open(path, "rb").read()
    digest = lambda it: "sha256=" + base64.urlsafe_b64encode(hashlib.sha256(it).digest()).rstrip(b"=").decode()
    files[f"{info}/RECORD"] = ("".join(f"{path},{digest(it)},{len(it)}\n" for path, it in files.items()) + f"{info}/RECORD,,\n").encode()
    with zipfile.ZipFile(f"{folder}/{name}-{number}-{tag}.whl", "w", zipfile.ZIP_DEFLATED) as wheel:
        for path, it in files.items():
            entry = zipfile.ZipInfo(path, (2026, 1, 1, 0, 0, 0))
            entry.compress_type, entry.external_attr = zipfile.ZIP_DEFLATED, (0o755 if path.endswith(".so") else 0o644) << 16
            wheel.writestr(entry, it)


# ---- the archive with install.sh


def make_archive(dist, folder):
    """Makes the archive of all files, with a script that copies them below a folder and one that removes them."""
    top = f"niscorzu-{version(dist)}-x86_64-linux"
    files = {os.path.relpath(it, dist): it for it in files_in(dist, "bin", "include", "lib", "share")}
    with tempfile.TemporaryDirectory() as room:
        write(f"{room}/README", claims(dist, "{} (the library {})".format(*glibc(dist))))
        files.update({f"{OWN}/README": f"{room}/README", f"{OWN}/uninstall.sh": f"{HERE}/uninstall.sh"})
        write(f"{room}/FILES", "".join(f"{it}\n" for it in sorted([*files, f"{OWN}/FILES"])))
        files.update({f"{OWN}/FILES": f"{room}/FILES", "install.sh": f"{HERE}/install.sh"})
        made = io.BytesIO()
        with tarfile.open(fileobj=made, mode="w", format=tarfile.USTAR_FORMAT) as archive:
            for name, path in sorted(files.items()):
                with open(path, "rb") as it:
                    text = it.read()
                entry = tarfile.TarInfo(f"{top}/{name}")
                entry.size, entry.mtime, entry.mode = len(text), TIME, 0o755 if name.endswith(".sh") or name.startswith("bin/") else 0o644
                archive.addfile(entry, io.BytesIO(text))
        write(f"{folder}/{top}.tar.gz", packed(made.getvalue()))


def make(dist):
    """Makes each package, and the list of their sums, in the folder `packages`."""
    folder = f"{dist}/packages"
    os.makedirs(folder)
    make_debian(dist, folder)
    make_wheel(dist, folder)
    make_archive(dist, folder)
    names = sorted(os.listdir(folder))
    sums = "".join(f"{digest_of(f'{folder}/{it}', 'sha256')}  {it}\n" for it in names)
    write(f"{folder}/SHA256SUMS", sums)
