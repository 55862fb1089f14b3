"""Makes the Debian packages of a release. It lists the staged files that go into each package, and writes the control
files of the packages."""

import datetime
import glob
import gzip
import hashlib
import os
import re
import shutil

import packing
from packing import BUILT, TOP, VERSION, VERSION_OF_DEBIAN, VERSION_OF_PYTHON, Stop, said, write

TEMPLATES = os.path.join(TOP, "release", "debian")
LIBRARIES = "/usr/lib/x86_64-linux-gnu"


class Debs:
    """A mixin with the methods that make Debian packages. A class that uses this mixin needs five attributes: a folder
    `work`, a time `seconds`, a text `proved`, a `debian_version` and a list `made`."""

    def debs(self, has_wheel):
        """Makes all Debian packages. Each package has some of the staged files, and its own control files."""
        staged = self.staged("staged", "/usr", LIBRARIES)
        take = {
            "capn": ["usr/bin", "usr/share/man/man1", "usr/share/bash-completion", "usr/share/zsh", "usr/share/fish",
                     "usr/share/doc/capn"],
            "libcapn1": [f"{LIBRARIES[1:]}/libcapn.so.1"],
            "libcapn-dev": ["usr/include", f"{LIBRARIES[1:]}/libcapn.so", f"{LIBRARIES[1:]}/libcapn.a",
                            f"{LIBRARIES[1:]}/pkgconfig", f"{LIBRARIES[1:]}/cmake", "usr/share/man/man3"],
        }
        for package, parts in take.items():
            folder = os.path.join(self.work, "deb", package)
            for part in parts:
                os.makedirs(os.path.dirname(os.path.join(folder, part)), exist_ok=True)
                os.rename(os.path.join(staged, part), os.path.join(folder, part))
        libraries = os.path.join(self.work, "deb", "libcapn1", LIBRARIES[1:])
        os.chmod(os.path.join(libraries, "libcapn.so.1"), 0o644)
        vendor = os.path.join(self.work, "deb", "capn", "usr/share/zsh/vendor-completions")
        os.rename(os.path.join(os.path.dirname(vendor), "site-functions"), vendor)
        pages = os.path.join(self.work, "deb", "libcapn-dev", "usr/share/doc/libcapn-dev")
        os.makedirs(os.path.dirname(pages), exist_ok=True)
        os.rename(os.path.join(staged, "usr/share/doc/libcapn"), pages)
        shutil.copytree(os.path.join(TOP, "c", "examples"), os.path.join(pages, "c", "examples"),
                        ignore=shutil.ignore_patterns("*.py", "*.rs"))
        os.symlink("c/examples", os.path.join(pages, "examples"))
        if has_wheel:
            folder = os.path.join(self.work, "deb", "python3-capn")
            shutil.copytree(os.path.join(self.work, "inside"), os.path.join(folder, "usr/lib/python3/dist-packages"))
            for name in ("RECORD", "PROVED", "LICENSE", "NOTICE", "top_level.txt"):
                info = f"capn-{VERSION_OF_PYTHON}.dist-info"
                with_info = os.path.join(folder, "usr/lib/python3/dist-packages", info, name)
                if os.path.exists(with_info):
                    os.remove(with_info)
            shutil.copytree(os.path.join(self.work, "deb", "capn", "usr/share/doc/capn"),
                            os.path.join(folder, "usr/share/doc/python3-capn"))
        for package in [*take, *(["python3-capn"] if has_wheel else [])]:
            self.deb(package, os.path.join(self.work, "deb", package))

    def deb(self, package, folder):
        """Builds one Debian package from the files of the package, and from the templates of the package in
        release/debian."""
        pages = os.path.join(folder, "usr/share/doc", package)
        os.makedirs(pages, exist_ok=True)
        for name in ("LICENSE", "NOTICE"):
            shutil.copy(os.path.join(TOP, name), pages)
        with open(os.path.join(TEMPLATES, "copyright"), encoding="utf-8") as file:
            head = file.read()
        write(os.path.join(pages, "copyright"), head)
        day = datetime.datetime.fromtimestamp(self.seconds, datetime.timezone.utc)
        change = (f"capn ({self.debian_version}) stable; urgency=medium\n\n"
                  f"  * Version {VERSION}: the page CHANGES.md says what is new.\n\n"
                  f" -- {self.field('Maintainer')}  {day:%a, %d %b %Y %H:%M:%S} +0000\n")
        write(os.path.join(pages, "changelog.Debian.gz"), self.zipped(change.encode()))
        if self.proved:
            write(os.path.join(pages, "PROVED"), self.proved)
        for page in glob.glob(os.path.join(folder, "usr/share/man/*/*")):
            with open(page, "rb") as file:
                write(page + ".gz", self.zipped(file.read()))
            os.remove(page)
        overrides = os.path.join(TEMPLATES, f"{package}.lintian-overrides")
        if os.path.exists(overrides):
            with open(overrides, encoding="utf-8") as file:
                text = file.read()
            if not self.proved:
                # Some overrides are right for a released version, but not for a version in development. Leaves out such
                # an override for a version in development.
                text = re.sub(r"#.*\n.*initial-upload.*\n", "", text)
            write(os.path.join(folder, "usr/share/lintian/overrides", package), text)
        control = os.path.join(folder, "DEBIAN")
        for name in ("triggers", "postinst", "prerm"):
            if os.path.exists(os.path.join(TEMPLATES, f"{package}.{name}")):
                with open(os.path.join(TEMPLATES, f"{package}.{name}"), "rb") as file:
                    write(os.path.join(control, name), file.read(), 0o644 if name == "triggers" else 0o755)
        needs = self.needs(package, folder)
        if package == "libcapn1":
            write(os.path.join(control, "shlibs"), f"libcapn 1 libcapn1 (>= {VERSION_OF_DEBIAN})\n")
        files = [it for it in packing.paths_of(folder) if not it.startswith("DEBIAN")]
        size = sum(-(-os.path.getsize(os.path.join(folder, it)) // 1024)
                   if os.path.isfile(os.path.join(folder, it)) and not os.path.islink(os.path.join(folder, it)) else 1
                   for it in files)
        with open(os.path.join(TEMPLATES, f"{package}.control"), encoding="utf-8") as file:
            text = file.read()
        text = text if needs else re.sub(r"^Depends: @NEEDS@\n|, @NEEDS@$", "", text, flags=re.M)
        text = text.replace("@VERSION@", self.debian_version).replace("@SIZE@", str(size)).replace("@NEEDS@", needs)
        write(os.path.join(control, "control"), text.replace("@MAINTAINER@", self.field("Maintainer")))
        sums = []
        for name in files:
            path = os.path.join(folder, name)
            if os.path.isfile(path) and not os.path.islink(path):
                with open(path, "rb") as file:
                    sums.append(f"{hashlib.md5(file.read()).hexdigest()}  {name}\n")
        write(os.path.join(control, "md5sums"), "".join(sums))
        packing.settle(folder, self.seconds)
        path = os.path.join(self.work, f"{package}_{self.debian_version}_amd64.deb")
        said("dpkg-deb", "--root-owner-group", "-Zxz", "-z9", "--threads-max=1", "--build", folder, path)
        self.made.append(path)

    def zipped(self, data):
        return gzip.compress(data, 9, mtime=0)

    def field(self, name):
        with open(os.path.join(TEMPLATES, "source.control"), encoding="utf-8") as file:
            return re.search(rf"^{name}: (.*)$", file.read(), re.M)[1]

    def needs(self, package, folder):
        """Writes a package's list of symbols. Returns the dependencies that dpkg-shlibdeps finds for the files of the
        package."""
        found = [os.path.join(folder, it) for it in packing.paths_of(folder)
                 if re.search(r"usr/bin/capn$|\.so(\.1)?$", it) and not os.path.islink(os.path.join(folder, it))]
        if not found:
            return ""
        source = os.path.join(self.work, "source", package)
        shutil.copytree(TEMPLATES, os.path.join(source, "debian"))
        shutil.copy(os.path.join(TEMPLATES, "source.control"), os.path.join(source, "debian", "control"))
        if package == "libcapn1":
            with open(os.path.join(TEMPLATES, "libcapn1.symbols"), encoding="utf-8") as file:
                listed = set(re.findall(r"^ (\w+)@Base", file.read(), re.M))
            there = set(re.findall(r" T (\w+)$", said("nm", "-D", "--defined-only", BUILT["libcapn.so.1"]), re.M))
            if listed != there:
                raise Stop(f"libcapn.so.1 and the list of its names differ in {', '.join(sorted(listed ^ there))}")
            said("dpkg-gensymbols", f"-p{package}", f"-v{VERSION_OF_DEBIAN}", f"-P{folder}", "-c4",
                 f"-I{os.path.join(TEMPLATES, 'libcapn1.symbols')}", f"-O{os.path.join(folder, 'DEBIAN', 'symbols')}",
                 f"-e{os.path.join(folder, LIBRARIES[1:], 'libcapn.so.1')}", cwd=source)
            os.chmod(os.path.join(folder, "DEBIAN", "symbols"), 0o644)
        told = said("dpkg-shlibdeps", "-O", *found, cwd=source)
        return re.sub(r"^shlibs:Depends=", "", told.strip(), flags=re.M)
