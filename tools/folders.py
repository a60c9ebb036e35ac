"""Puts the folders of tools/ on Python's path, so that a script finds the modules in each."""

import importlib.machinery
import importlib.util
import pathlib
import re
import sys

TOP = str(pathlib.Path(__file__).resolve().parents[1])
FOLDERS = "models", "models/reference", "packaging", "proving"
sys.path[1:1] = [f"{TOP}/tools/{it}" for it in FOLDERS]


def load(path):
    """A script of tools/ as a module."""
    name = re.sub(r"\W", "_", path)
    loader = importlib.machinery.SourceFileLoader(name, f"{TOP}/tools/{path}")
    made = importlib.util.module_from_spec(importlib.util.spec_from_loader(name, loader))
    loader.exec_module(made)
    return made
