"""Writes proofs that are found into a source: for each `?`, and for each `sorry`."""
from .places import Wrong
from .search import SECONDS, proofs, surroundings
from .sources import DEPTH


def searched(gap, seconds=SECONDS):
    """What is found for a gap."""
    return proofs(gap.goal, surroundings(gap), gap.sorry.depth or DEPTH, seconds)


def with_found(writer):
    """The reports of the gaps, for each `?` with what is found."""
    reports = []
    for gap, why in zip(writer.goals, writer.gaps):
        details = list(why.details)
        if gap.sorry.depth is not None:
            search = searched(gap)
            details += [("found", search.proofs or ["nothing"]), ("looked", [search.said()])]
        reports.append(Wrong(why.why, why.place, details))
    return reports


def filled(writer, examined):
    """The text of the source with what is found for its gaps, and a line for each gap. `examined` judges a text: what makes
    it worse is left out."""
    text, found = writer.development.text, {}
    for span, gaps in by_span(writer.goals).items():
        searches = [searched(it) for it in gaps]
        found[span] = gaps, searches, list(dict.fromkeys(it for search in searches for it in search.proofs))
    changes = chosen(text, {span: texts for span, (_, _, texts) in found.items() if texts}, examined)
    lines = [f"{gaps[0].place}: {changes.get(span) or f'nothing is found ({searches[0].said()})'}"
             for span, (gaps, searches, _) in found.items()]
    if found:
        lines.append(f"{len(changes)} of {len(found)} gaps filled")
    return changed(text, changes), lines, len(changes) == len(found)


def chosen(text, found, examined):
    """Of what is found for each part of the text what makes it no worse: the best of each, or where that does, the first that
    doesn't, part by part."""
    many = count_problems(examined(text))
    best = {span: texts[0] for span, texts in found.items()}
    if count_problems(examined(changed(text, best))) <= many:
        return best
    changes = {}
    for span, texts in found.items():
        right = next((it for it in texts if count_problems(examined(changed(text, {**changes, span: it}))) <= many), None)
        if right:
            changes[span] = right
    return changes


def count_problems(made):
    writer, problems = made
    return len(problems) if writer else float("inf")


def by_span(gaps):
    """The gaps by where they stand in the text: a `where` is read at each of its uses."""
    spans = {}
    for it in gaps:
        if it.sorry.span:
            start, end = it.sorry.span
            spans.setdefault((it.place.at, it.place.at + end - start), []).append(it)
    return spans


def changed(text, changes):
    """The text with others for some of its parts."""
    for (start, end), new in sorted(changes.items(), reverse=True):
        text = text[:start] + new + text[end:]
    return text
