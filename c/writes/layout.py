"""How lines are laid out."""
import re
import textwrap

WIDTH = 120


def head(mark):
    """The first line of a file that follows from the header alone."""
    return f"{mark} Written by c/bindings from felter.h. To change this file, change felter.h and run c/bindings."


def filled(text, first="", later="", width=WIDTH):
    """Words on as few lines as the width allows."""
    return textwrap.fill(text, width, initial_indent=first, subsequent_indent=later, break_long_words=False,
                         break_on_hyphens=False)


def listed(first, items, last, indent):
    """Items after `first`, on as few lines as the width allows."""
    whole = first + ", ".join(items) + last
    if len(whole) <= WIDTH:
        return whole
    # (a star stays with the type before it)
    whole = re.sub(r"(?<=\w) (?=\*?\w+[,)])", "\0", whole)
    return filled(whole, later=indent).replace("\0", " ")
