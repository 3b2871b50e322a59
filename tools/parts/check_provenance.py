"""Checks provenance.json in a folder of packages: its form, and the hash of each package.

    check_provenance.py FOLDER VERSION    ends with an error at the first thing that is wrong
"""

import hashlib
import json
import pathlib
import re
import sys

folder, version = pathlib.Path(sys.argv[1]), sys.argv[2]
said = json.loads((folder / "provenance.json").read_text())
assert said["version"] == version and re.fullmatch(r"[0-9a-f]{40}(-dirty)?", said["commit"]), said
assert said["toolchain"].startswith("rattle-kit-") or said["toolchain"] == "unknown", said["toolchain"]
assert said["proofs"].startswith("rt: ok") or said["proofs"] == "not built by the gate", said["proofs"]
packages = {it.name for it in folder.iterdir()} - {"SHA256SUMS", "provenance.json"}
assert set(said["packages"]) == packages and len(packages) == 7, packages
for name in packages:
    assert said["packages"][name] == hashlib.sha256((folder / name).read_bytes()).hexdigest(), name
