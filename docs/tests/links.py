"""Looks that every link between the documents leads somewhere: to a file, and to a heading where it names one."""

import re

from blocks import Wrong


def anchor(heading):
    """The name that a heading has in an address: small letters, digits, hyphens for spaces, and nothing else."""
    plain = re.sub(r"\[([^\]]*)\]\([^)]*\)", r"\1", heading).lower()
    return re.sub(r"[^\w\- ]", "", plain).strip().replace(" ", "-")


def without_code(text):
    return re.sub(r"(?ms)^```.*?^```$", "", text)


def anchors_of(path):
    return {anchor(heading) for heading in re.findall(r"(?m)^#+ (.*)$", without_code(path.read_text()))}


def broken(root, file):
    """The links of a file that lead nowhere."""
    found = []
    for link in re.findall(r"\]\(([^)\s]+)\)", without_code((root / file).read_text())):
        name, _, heading = link.partition("#")
        path = (root / file).parent / name if name else root / file
        if link.startswith(("http:", "https:")):
            continue
        if not path.exists():
            found.append(link)
        elif heading and (path.is_dir() or heading not in anchors_of(path)):
            found.append(link)
    return found


def follow(root, file):
    """Wrong, with the links that lead nowhere."""
    found = broken(root, file)
    if found:
        raise Wrong("these links lead nowhere: " + ", ".join(found))
