"""Libraries that the tools load before a program, by LD_PRELOAD. gcc builds them."""
import pathlib, subprocess

HERE = pathlib.Path(__file__).resolve().parent


def library(folder, *sources):
    """Builds the files `sources` of this folder into a library in `folder`, and returns its path."""
    path = pathlib.Path(folder) / f"{pathlib.Path(sources[0]).stem}.so"
    words = ["gcc", "-O2", "-Wall", "-Wextra", "-shared", "-fPIC", "-o", path, *[HERE / source for source in sources]]
    subprocess.run(words, check=True)
    return path


def many_processors(folder):
    """A library with which a program starts as many workers as it is told, up to 64, on any machine."""
    return library(folder, "processors.c")
