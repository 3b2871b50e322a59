"""Prints the origin of the packages in the current folder as JSON: the commit, the toolchain, the gate's line about the proofs, the
tools, and hashes.

    provenance.py VERSION COMMIT TOOLCHAIN PROOFS EPOCH ARCHIVE PROGRAM    ARCHIVE is the folder of the two archives
"""

import hashlib
import json
import os
import subprocess
import sys
from importlib.metadata import version


def hashes(paths):
    found = {}
    for path in paths:
        with open(path, "rb") as file:
            found[os.path.basename(path)] = hashlib.sha256(file.read()).hexdigest()
    return found


def version_of(*words):
    return subprocess.run(words, capture_output=True, text=True).stdout.partition("\n")[0]


def main(number, commit, kit, proofs, epoch, archive, program):
    tools = [version_of(os.environ.get("CC", "cc"), "--version"), version_of("cargo", "--version")]
    tools += [f"{it} {version(it)}" for it in ("setuptools", "wheel")]
    tools += [version_of("dpkg-query", "-W", "-f", "${Package} ${Version}\n", it) for it in ("debhelper", "dpkg", "lowdown")]
    found = {
        "version": number,
        "commit": commit,
        "source_date_epoch": int(epoch),
        "toolchain": kit,
        "proofs": proofs,
        "tools": tools,
        "proved": hashes([f"{archive}/libsweep_bptree.a", f"{archive}/libsweep_bptree_heap.a", program]),
        "packages": hashes(sorted(os.listdir("."))),
    }
    print(json.dumps(found, indent=4))


main(*sys.argv[1:])
