"""Commands of tools/, which have no .py in their names, as modules of other tools."""
import importlib.machinery
import importlib.util

from crates import ROOT


def load(name):
    loader = importlib.machinery.SourceFileLoader(name, f"{ROOT}/tools/{name}")
    module = importlib.util.module_from_spec(importlib.util.spec_from_loader(name, loader))
    loader.exec_module(module)
    return module
