"""Checks a folder of pages: every link leads somewhere."""
import os
import re
from html import unescape

_LINK = re.compile(r"""<(?:a|link|script)[^>]*?\s(?:href|src)=("[^"]*"|'[^']*'|[^\s>]+)""")
_PLACE = re.compile(r"""<[^>]*?\sid=("[^"]*"|'[^']*'|[^\s>]+)""")


def _bare(value):
    return unescape(value.strip("\"'"))


def _pages(folder):
    for path, _, files in os.walk(folder):
        for it in sorted(files):
            if it.endswith(".html"):
                yield os.path.normpath(os.path.join(path, it))


def dead_links(folder):
    """How many links there are, and those that lead nowhere, as (page, address)."""
    count, wanted, dead, places = 0, {}, [], {}
    exists = {}
    for page in _pages(folder):
        with open(page, encoding="utf-8") as file:
            text = file.read()
        here = {_bare(it) for it in _PLACE.findall(text)}
        places[page] = here if os.path.dirname(page) == os.path.normpath(folder) else None
        for address in map(_bare, _LINK.findall(text)):
            count += 1
            path, _, place = address.partition("#")
            if not path:
                if place not in here:
                    dead.append((page, address))
                continue
            target = os.path.normpath(os.path.join(os.path.dirname(page), path))
            if target not in exists:
                exists[target] = os.path.isfile(target)
            if not exists[target]:
                dead.append((page, address))
            elif place:
                wanted.setdefault((target, place), (page, address))
    for (target, place), link in wanted.items():
        if place not in (places.get(target) or ()):
            dead.append(link)
    return count, dead
