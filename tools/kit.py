"""The kit's command `rt` as a module, for the tools that ask it what it knows of the crates."""
import importlib.machinery
import importlib.util
import os
import shutil


def load_rt():
    """The command as a module, set up as it sets itself up."""
    loader = importlib.machinery.SourceFileLoader("rt", os.path.realpath(shutil.which("rt") or "/opt/rattle/bin/rt"))
    rt = importlib.util.module_from_spec(importlib.util.spec_from_loader("rt", loader))
    loader.exec_module(rt)
    return rt
