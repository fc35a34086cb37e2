"""The extension module, over the static libraries that `make library` leaves,
or over those in the folder that LIBNATTIZHU names."""

import os
import re
import sysconfig

from setuptools import Extension, setup
from wheel.bdist_wheel import bdist_wheel

CRATE = "../crates/ripemd_c"
FOLDER = os.environ.get("LIBNATTIZHU", f"{CRATE}/out")
LIBRARIES = [f"{FOLDER}/libnattizhu.a"]
if sysconfig.get_platform().endswith("x86_64"):
    LIBRARIES.append(f"{FOLDER}/libnattizhu_v3.a")
with open(f"{CRATE}/nattizhu.h", encoding="utf-8") as header:
    VERSION = re.search('NATTIZHU_VERSION "(.*)"', header.read())[1]


class BdistWheel(bdist_wheel):
    """Its tag names the oldest glibc that has what the module needs."""

    def get_tag(self):
        [module] = self.get_finalized_command("build_ext").get_outputs()
        with open(module, "rb") as file:
            needed = re.findall(rb"\0GLIBC_2\.(\d+)", file.read())
        *tag, platform = super().get_tag()
        return *tag, platform.replace("linux", f"manylinux_2_{max(map(int, needed))}")


setup(
    version=VERSION,
    cmdclass={"bdist_wheel": BdistWheel},
    ext_modules=[Extension(
        "nattizhu._nattizhu", ["nattizhu/_nattizhu.c"],
        depends=[f"{CRATE}/nattizhu.h", *LIBRARIES],
        include_dirs=[CRATE], extra_objects=LIBRARIES,
        # -g0: no names of folders in the module, so that its bytes are the
        # same wherever it is built.
        extra_compile_args=["-std=c99", "-fvisibility=hidden", "-g0"],
        extra_link_args=["-Wl,--exclude-libs,ALL,-z,relro,-z,now"], py_limited_api=True)],
    options={"bdist_wheel": {"py_limited_api": "cp311"}},
)
