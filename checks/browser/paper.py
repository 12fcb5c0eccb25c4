"""What a page is on paper, by the PDF that a browser prints of it: for checks/browser/run. The PDF is read by mutool."""
import subprocess
import tempfile
import xml.etree.ElementTree

# A PDF has 72 units to the inch, and a page of HTML 96.
UNITS = 96 / 72


class Sheet:
    """A sheet of paper: its width and height, and of each letter the size and the place, from the left and from above."""

    def __init__(self, width, height, letters):
        self.width, self.height, self.letters = width, height, letters


def sheets(content):
    """The sheets of a PDF, in the order in which they are printed."""
    with tempfile.NamedTemporaryFile(suffix=".pdf") as file:
        file.write(content)
        file.flush()
        words = ["mutool", "draw", "-q", "-F", "stext", "-o", "-", file.name]
        with subprocess.Popen(words, stdout=subprocess.PIPE, stderr=subprocess.DEVNULL) as reader:
            found = list(read(reader.stdout))
    if reader.returncode:
        raise ValueError("mutool cannot read what was printed")
    return found


def read(text):
    """The sheets that mutool tells, each let go as soon as it is read."""
    letters, size = [], 0
    for when, part in xml.etree.ElementTree.iterparse(text, ("start", "end")):
        if when == "start" and part.tag == "font":
            size = UNITS * float(part.get("size"))
        elif when == "end" and part.tag == "char" and part.get("c").strip():
            letters.append((size, UNITS * float(part.get("x")), UNITS * float(part.get("y"))))
        elif when == "end" and part.tag == "page":
            yield Sheet(UNITS * float(part.get("width")), UNITS * float(part.get("height")), letters)
            letters = []
        if when == "end":
            part.clear()
