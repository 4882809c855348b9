"""What tests/documents asks of links: that each leads to a file, and if it names a heading, that the page has it."""
import functools
import os
import re

import prose


def anchor(heading):
    """The name by which a link finds a heading: its words in lower case, joined by hyphens."""
    text = re.sub(r"\[([^\]]*)\]\([^)]*\)", r"\1", heading)
    return re.sub(r"[^\w\- ]", "", text.strip().lower()).replace(" ", "-")


@functools.lru_cache(maxsize=None)
def anchors(page):
    """The anchors of a page. One that occurs again gets a number."""
    found = []
    for heading in re.findall(r"(?m)^#+ (.*)", re.sub(r"(?ms)^```.*?^```", "", prose.read(page))):
        name = anchor(heading)
        again = sum(1 for it in found if re.fullmatch(re.escape(name) + r"(-\d+)?", it))
        found.append("%s-%d" % (name, again) if again else name)
    return found


def check(report, page, text):
    for target in re.findall(r"\]\(([^)]+)\)", text):
        if "://" in target or "<" in target:
            continue
        path, _, name = target.partition("#")
        to = os.path.normpath(os.path.join(os.path.dirname(page), path)) if path else page
        report.need(page, os.path.exists(os.path.join(prose.TOP, to)), "nothing is at " + target)
        if name and to.endswith(".md") and os.path.exists(os.path.join(prose.TOP, to)):
            report.need(page, name in anchors(to), "%s has no heading for #%s" % (to, name))
