"""The rules of docs/SEMANTICS.md, and the scenarios of examples/linux that they name."""
import re

import scenarios
from scenarios import common

PAGE = f"{common.ROOT}/docs/SEMANTICS.md"

DIFFERENCES, FUNCTIONS = "## Where this differs from Linux", "## The functions of Linux"

NAMED = re.compile(r"`([a-z0-9_]+)`")


def parts():
    """The text of the page from its first rule on, up to the differences, and what follows."""
    rules, _, differences = common.text_of(PAGE).partition(DIFFERENCES)
    return rules.partition("- *own*: ")[2], differences


def of_text(text):
    """The rules in a text: each paragraph or point, as one line."""
    rule = []
    for line in [*text.splitlines(), ""]:
        if rule and (not line.strip() or re.match(r"\s*- |#|\|", line)):
            yield " ".join(rule)
            rule = []
        if line.strip() and not line.startswith(("#", "|")):
            rule.append(line.strip())


def of_kernel():
    """The rules that are marked *kernel*, each with the scenarios that it names, in their order."""
    names = set(scenarios.names())
    found = [it for it in of_text(parts()[0]) if "*kernel*" in it]
    return [(rule, [it for it in NAMED.findall(rule) if it in names]) for rule in found]


def fewest():
    """Few scenarios, such that each rule of the kernel names one: always the first that most of the others name."""
    left, found = [names for _, names in of_kernel() if names], []
    while left:
        found.append(max((it for names in left for it in names), key=lambda it: sum(it in names for names in left)))
        left = [names for names in left if found[-1] not in names]
    return sorted(found)
