"""Compiles the extension over the archives of the library for C.

`tools/package` puts them, the header and the shared object into native/ and sweep_bptree/. In a checkout SWEEP_BPTREE_ARCHIVE names
the folder that `tools/faces build` makes.
"""

import os
import shutil
import sys

from setuptools import Extension, setup
from setuptools.command.build_ext import build_ext

HERE = os.path.dirname(os.path.abspath(__file__))
ARCHIVE = os.environ.get("SWEEP_BPTREE_ARCHIVE") or os.path.join(HERE, "native")
HEADERS = [os.path.join(HERE, "native"), os.path.join(HERE, "..", "crates", "bptree_c", "include")]
LIBRARIES = [os.path.join(ARCHIVE, name) for name in ("libsweep_bptree.a", "libsweep_bptree_heap.a", "libsweep_bptree.so")]


class Build(build_ext):
    """Builds the extension, and puts the shared object beside it, which the shards call."""

    def run(self):
        for path in LIBRARIES:
            if not os.path.isfile(path):
                sys.exit(
                    f"sweep_bptree: there is no {path}. This folder is a checkout without the compiled library: install the wheel, "
                    "or make the library with `tools/faces build` and set SWEEP_BPTREE_ARCHIVE to out/faces."
                )
        super().run()
        folder = os.path.dirname(self.get_ext_fullpath("sweep_bptree._native"))
        os.makedirs(folder, exist_ok=True)
        shutil.copy(LIBRARIES[2], folder)


setup(
    ext_modules=[
        Extension(
            "sweep_bptree._native",
            [f"native/{name}.c" for name in ("arrays", "iterators", "keys", "native")],
            include_dirs=HEADERS,
            define_macros=[("Py_LIMITED_API", "0x030B0000"), ("NDEBUG", None)],
            extra_compile_args=["-std=c11", "-O2", "-g0", "-fvisibility=hidden"],
            extra_link_args=["-s", "-Wl,--exclude-libs,ALL", "-Wl,-z,relro,-z,now,-z,noexecstack", *LIBRARIES[:2]],
            depends=LIBRARIES[:2] + ["native/keys.h", "native/maps.h"],
            py_limited_api=True,
        )
    ],
    cmdclass={"build_ext": Build},
    options={"bdist_wheel": {"py_limited_api": "cp311"}},
)
