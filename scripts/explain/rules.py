"""What docs/RULES.md says of each rule."""
import os
import re

PAGE = os.path.join(os.path.dirname(os.path.dirname(os.path.dirname(os.path.abspath(__file__)))), "docs", "RULES.md")


def sentences():
    """The sentence of each rule, by its code."""
    if not os.path.exists(PAGE):
        return {}
    found, code = {}, None
    with open(PAGE, encoding="utf-8") as file:
        for line in file:
            heading = re.match(r"### ([A-Z]\d+) ", line)
            if heading:
                code = heading[1]
            elif code and line.strip() and not line.startswith(("-", "#")):
                found.setdefault(code, line.strip().replace("`", ""))
            elif line.startswith("#"):
                code = None
    return found


def examples():
    """Of each rule the command of the page that shows it, by the rule's code."""
    found, code = {}, None
    with open(PAGE, encoding="utf-8") as file:
        for line in file:
            heading, shown = re.match(r"### ([A-Z]\d+) ", line), re.match(r"- Shown: `\./mz ([^`]+)`", line)
            if heading:
                code = heading[1]
            elif shown and code:
                found[code] = shown[1].split()
    return found
