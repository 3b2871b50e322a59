"""Compares the header for C with what crates/bptree_c exports: the names of the functions, in one order, with the types of what they
take and return, and the numbers of the results. A handle is `const` in the header where, and only where, the export's contract says
that the handle holds what it held.

    compare_header.py CRATE    ends with a message, and the status 1, at the first difference
"""

import pathlib
import re
import sys

IN_C = {
    "bool": "bool",
    "u64": "uint64_t",
    "usize": "size_t",
    "&mut Handle": "bptree *",
    "&mut Pair": "bptree_pair *",
    "&mut u64": "uint64_t *",
    "&mut usize": "size_t *",
    "&mut DictHandle": "bptree_dict *",
    "&[u64]": "const uint64_t *, size_t",
    "&mut [u64]": "uint64_t *, size_t",
    "&[usize]": "const size_t *, size_t",
    "&mut [usize]": "size_t *, size_t",
    "&[Record]": "const bptree_record *, size_t",
    "&mut [Record]": "bptree_record *, size_t",
    "&[u8]": "const uint8_t *, size_t",
    "&mut [u8]": "uint8_t *, size_t",
    "&mut [Pair]": "bptree_pair *, size_t",
    "&[Pair]": "const bptree_pair *, size_t",
}
RESULTS = {"bool": "bool", "usize": "size_t", "u32": "bptree_result", "": "void"}
# The files of the exports, in the order of the header.
SOURCES = ["version", "making", "reading", "writing", "many", "columns", "batch", "dict", "dict_many", "dict_load", "dict_ends"]
EXPORT = re.compile(r'no_mangle\)\]\s*pub extern "C" fn (\w+)\(([^)]*)\)(?: -> (\w+))?\s*(.*?)^\{', re.S | re.M)
KEEPS_ITS_HANDLE = re.compile(r"ensures kept \{ \w+\.new\.held ≡ Some pairs \}")


def exports_of(crate):
    """The exports: of each the name, what it returns and what it takes, as C has these types."""
    for name in SOURCES:
        for function, given, result, contract in EXPORT.findall((crate / "src" / f"{name}.rt").read_text()):
            # The heap takes no bytes.
            types = [IN_C[it.partition(":")[2].strip()] for it in given.split(",") if it.strip() and not it.endswith(" Global")]
            if KEEPS_ITS_HANDLE.search(contract):
                types[0] = "const " + types[0]
            # A number of 32 bits is a code, but for the version.
            yield function, "uint32_t" if function == "bptree_version" else RESULTS[result], ", ".join(types)


def declarations_of(header):
    """The functions that the header declares, in the same form. Those that it defines itself are left out."""
    bare = re.sub(r"/\*.*?\*/|^static inline .*?\}$", "", header, flags=re.S | re.M)
    for result, function, given in re.findall(r"^(\w+) (bptree_\w+)\(([^)]*)\);", bare, re.M):
        yield function, result, ", ".join(re.sub(r"\s*\b\w+$", "", it.strip()) for it in given.split(","))


def main(crate):
    header = (crate / "include" / "sweep_bptree.h").read_text()
    exports, declared = list(exports_of(crate)), list(declarations_of(header))
    wanted = {it[0]: it for it in exports}
    for it in declared:
        if wanted.get(it[0]) != it:
            return f"the header declares {it}, and the crate exports {wanted.get(it[0])}"
    public = re.search(r"pub use .*", (crate / "src" / "lib.rt").read_text(), re.S)[0]
    if set(wanted) != {it[0] for it in declared} or not set(wanted) <= set(re.findall(r"bptree_\w+", public)):
        return f"not in the header: {sorted(set(wanted) - {it[0] for it in declared})}"
    if declared != exports:
        return "the header and the sources name the functions in two orders"
    codes = dict(re.findall(r"^    BPTREE_(\w+) = (\d+)", header, re.M))
    if codes != dict(re.findall(r"const (\w+): u32 = (\d+);", (crate.parent / "bptree_c_maps" / "src" / "results.rt").read_text())):
        return "the header and the crate number the results in two ways"
    return None


sys.exit(main(pathlib.Path(sys.argv[1])))
