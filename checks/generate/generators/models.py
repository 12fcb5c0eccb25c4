"""The model of campaigns in checks/random_campaigns. That file has no ending, so `import` does not find it."""
import importlib.machinery
import importlib.util
import os

CHECKS = os.path.dirname(os.path.dirname(os.path.dirname(os.path.realpath(__file__))))
PATH = os.path.join(CHECKS, "random_campaigns")


def loaded():
    loader = importlib.machinery.SourceFileLoader("random_campaigns", PATH)
    module = importlib.util.module_from_spec(importlib.util.spec_from_loader(loader.name, loader))
    loader.exec_module(module)
    return module


campaigns = loaded()


def program(text):
    """Assembles a program whose lines are separated by semicolons. Its `code` has the bytes."""
    return campaigns.Program(text.replace("; ", "\n"))


def context_numbers(generals, bound, general, commander, round_, count, taken):
    """The numbers at the beginning of a context if orders are oral. Each takes 4 bytes."""
    return [generals, bound, general, commander, round_, count, generals - round_, 0, *taken]
