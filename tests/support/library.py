"""The library for C as its users have it."""
import os
import pathlib
import shutil
import subprocess

TOP = pathlib.Path(__file__).resolve().parents[2]


def built_library() -> tuple[pathlib.Path | None, str]:
    """The folder of the library and the header that fit the sources as they stand, or none, and why."""
    words = ["sh", "-c", 'top=$1; . "$top/sources.sh"; library_path', "sh", TOP]
    done = subprocess.run(words, capture_output=True, text=True)
    if done.returncode:
        return None, f"{done.stderr.strip()}; ./prove pcompact_c builds it"
    return pathlib.Path(done.stdout.removesuffix("\n")), ""


def compiler() -> str | None:
    """The C compiler."""
    return shutil.which(os.environ.get("CC", "cc"))
