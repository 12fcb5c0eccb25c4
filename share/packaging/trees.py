"""What is in a folder, in one order everywhere."""
import os


def entries(tree):
    """Returns the relative paths of all that is in a folder, in order. Each folder comes before what is in it."""
    found = []
    for at, folders, names in os.walk(tree):
        # (a link to a folder is listed as one, and not entered)
        found += [os.path.relpath(os.path.join(at, name), tree) for name in folders + names]
    return sorted(found, key=lambda path: path.split("/"))


def leaves(tree):
    """Returns the paths of all files and links in a folder."""
    return [path for path in entries(tree) if os.path.islink(os.path.join(tree, path)) or not os.path.isdir(os.path.join(tree, path))]


def plain_files(tree):
    """Returns the paths of all files in a folder that are no links."""
    return [path for path in leaves(tree) if not os.path.islink(os.path.join(tree, path))]
