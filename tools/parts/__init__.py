"""What several programs of this directory stand on."""
import importlib.machinery
import importlib.util
import os
import sys

TOOLS = os.path.dirname(os.path.dirname(os.path.realpath(__file__)))


def tool(name):
    """A program of this directory as a module. Each of them runs by itself too, so none is a part."""
    module_name = name.replace("-", "_")
    if module_name not in sys.modules:
        loader = importlib.machinery.SourceFileLoader(module_name, os.path.join(TOOLS, name))
        module = importlib.util.module_from_spec(importlib.util.spec_from_loader(module_name, loader))
        sys.modules[module_name] = module
        loader.exec_module(module)
    return sys.modules[module_name]


listing = tool("listing-of-folder")
# One refusal for all: no folder or listing is made, and the text says why.
Refused = listing.Refused
