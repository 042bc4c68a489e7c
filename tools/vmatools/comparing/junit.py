"""JUnit's XML, as CI servers read it: a suite of cases, of which each has passed, failed or was left out."""

import re
from xml.etree import ElementTree

COUNTS = {"tests": "testcase", "failures": "failure", "skipped": "skipped", "errors": "error"}


class Suite:
    """The cases of a run."""

    def __init__(self, name: str) -> None:
        self.root = ElementTree.Element("testsuite", name=name)

    def add(self, group: str, name: str, came: str = "", message: str = "", text: str = "") -> ElementTree.Element:
        """A case. What came of it is `failure`, `skipped` or `error`, and nothing where it has passed."""
        case = ElementTree.SubElement(self.root, "testcase", classname=group, name=clean(name))
        if came:
            ElementTree.SubElement(case, came, message=clean(message)).text = clean(text) or None
        return case

    def text(self) -> str:
        self.root.attrib.update({name: str(sum(1 for _ in self.root.iter(what))) for name, what in COUNTS.items()})
        ElementTree.indent(self.root)
        return '<?xml version="1.0" encoding="UTF-8"?>\n' + ElementTree.tostring(self.root, encoding="unicode") + "\n"


def clean(text: str) -> str:
    """A text without the characters that XML may not have."""
    return re.sub("[^\t\n -\ud7ff\ue000-\ufffd\U00010000-\U0010ffff]", "?", text)
