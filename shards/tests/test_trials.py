"""The trials as tests of pytest, to run some of them by name: `pytest shards/tests -k routes`.

This is a convenience. The gate runs the trials by tools/shards, which builds the program and the library, takes longer runs, and fails
if they can't be built. Here a trial is skipped if they are missing, and with CI set in the environment it fails.
SWEEP_BPTREE_PROGRAM and SWEEP_BPTREE_LIBRARY name them, as for tools/shards.
"""

from __future__ import annotations

import logging
import os
import sys

import pytest

HERE = os.path.dirname(os.path.abspath(__file__))
TOP = os.path.dirname(os.path.dirname(HERE))
FOLDERS = [HERE, os.path.join(TOP, "shards"), os.path.join(TOP, "python")]
# (also for the processes of the workers)
os.environ["PYTHONPATH"] = os.pathsep.join([*FOLDERS, *filter(None, [os.environ.get("PYTHONPATH")])])
sys.path[:0] = FOLDERS


def missing(why: str, **given) -> None:
    if os.environ.get("CI"):
        pytest.fail(why)
    pytest.skip(why, **given)


try:
    import distributed  # noqa: F401
    import numpy  # noqa: F401
except ImportError as error:
    missing(f"{error}: tools/setup installs it", allow_module_level=True)

import trials  # noqa: E402

# The least numbers of lines and keys that the long runs take.
trials.LINES, trials.KEYS = 50_000, 200_000
trials.PROGRAM = trials.PROGRAM or os.path.join(TOP, "crates", "bptree", "out", "bptree")
LIBRARY = os.environ.setdefault("SWEEP_BPTREE_LIBRARY", os.path.join(TOP, "out", "faces", "libsweep_bptree.so"))


def run(function, *given) -> None:
    """Runs a trial, which has printed what failed, or why it was not run."""
    before = trials.passed, trials.failed, trials.skipped
    function(*given)
    assert trials.failed == before[1], f"{trials.failed - before[1]} comparisons of {function.__name__} failed"
    if trials.skipped > before[2] and trials.passed == before[0]:
        pytest.skip(f"{function.__name__} can't be run here")


@pytest.fixture
def built() -> None:
    for path, tool in ((trials.PROGRAM, "./bptree"), (LIBRARY, "tools/faces build")):
        if not os.path.exists(path):
            missing(f"{path} is missing: {tool} builds it")


@pytest.fixture(scope="module")
def client(tmp_path_factory):
    """A client of three workers, in which allocations can be made to fail."""
    logging.getLogger("asyncio").setLevel(logging.CRITICAL)
    with pytest.MonkeyPatch.context() as patch:
        library = trials.build_refuse(str(tmp_path_factory.mktemp("refuse")))
        if library:
            patch.setenv("LD_PRELOAD", library)
        with trials.local_client(workers=trials.WORKERS) as found:
            yield found


@pytest.mark.parametrize("function", trials.ROUTES)
def test_routes(function) -> None:
    run(function)


@pytest.mark.parametrize("function", trials.FILES)
def test_files(function, tmp_path) -> None:
    run(function, str(tmp_path))


@pytest.mark.parametrize("function", trials.ALONE)
def test_alone(function, built, tmp_path) -> None:
    run(function, str(tmp_path))


@pytest.mark.parametrize("function", (*trials.ON_WORKERS, *trials.LONG))
def test_on_workers(function, built, client, tmp_path) -> None:
    run(function, client, str(tmp_path))
