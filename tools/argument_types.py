"""Types of arguments for argparse. Each refuses a wrong argument by its name, and says what is expected."""

import argparse
import os
import pathlib
import shutil
import sys


def refuse(text):
    raise argparse.ArgumentTypeError(text)


def file(text):
    """A file that exists."""
    path = pathlib.Path(text)
    if not path.exists():
        refuse(f"there is no file {text}")
    if path.is_dir():
        refuse(f"{text} is a folder: give a file")
    if not os.access(path, os.R_OK):
        refuse(f"the file {text} cannot be read")
    return path


def folder(text):
    """A folder that exists."""
    path = pathlib.Path(text)
    if not path.exists():
        refuse(f"there is no folder {text}")
    if not path.is_dir():
        refuse(f"{text} is a file: give a folder")
    return path


def new_file(text):
    """A file that can be written."""
    path = pathlib.Path(text)
    if path.is_dir():
        refuse(f"{text} is a folder: give a file")
    if not path.absolute().parent.is_dir():
        refuse(f"there is no folder {path.parent} for the file")
    return path


def new_folder(text):
    """A folder that exists or can be made."""
    path = pathlib.Path(text)
    if path.exists() and not path.is_dir():
        refuse(f"{text} is a file: give a folder")
    return path


def executable(hint):
    """Returns the type of programs that exist. A hint says how to build one. The text is returned with a slash in it."""

    def parsed(text):
        if not os.path.exists(text):
            refuse(f"there is no program {text}: {hint}")
        if os.path.isdir(text) or not os.access(text, os.X_OK):
            refuse(f"{text} is not a program: {hint}")
        return text if os.sep in text else os.path.join(os.curdir, text)

    return parsed


program = executable("`make build` builds crates/wlb/out/wlb")


def number(least):
    """Returns the type of whole numbers from `least` on."""

    def parsed(text):
        if not (text.isascii() and text.isdigit()) or int(text) < least:
            refuse(f"{text} is not a whole number from {least} on")
        return int(text)

    return parsed


def amount(text):
    """A number above 0, which may have a fraction."""
    try:
        parsed = float(text)
    except ValueError:
        parsed = 0
    if not 0 < parsed < float("inf"):
        refuse(f"{text} is not a number above 0, such as 10 or 0.5")
    return parsed


def need_command(name, source):
    """Ends the tool if there is no such command. `source` says where it comes from."""
    if not shutil.which(name):
        sys.exit(f"{pathlib.Path(sys.argv[0]).stem}: there is no command `{name}`: {source}")
