"""Tests of tools/reading_parts on what the program prints of all sources that the documents show, with several seeds: each scenario
fills its activity, links stay in one pool, values are in their domains, a run keeps the order that was found, and `check` takes each
other run that keeps it."""
import random
import re

from coverage_parts.gather import Gathered
from reading_parts.model import read_model
from reading_parts.story import Story
from reading_parts.trace import read

from .shared import TOP, run

SHOWN = re.compile(r"^```pss (\S+)\n(.*?)^```", re.M | re.S)
COMMAND = re.compile(r"^\$ pstim (?:run|solve) (.*)$", re.M)
SEEDS = range(1, 5)


def commands(tests):
    """The sources of the documents, written to a folder for each document, with the words of their commands."""
    for path in sorted((TOP / "docs").glob("*.md")):
        text, folder = path.read_text(), tests.folder / f"shown-{path.stem}"
        found = [(name, body) for name, body in SHOWN.findall(text) if "/" not in name]
        if found:
            folder.mkdir()
        for name, body in found:
            (folder / name).write_text(body)
        for words in COMMAND.findall(text) if found else []:
            words = [word for word in words.partition(" > ")[0].split() if not word.startswith(("seed=", "lanes="))]
            if all((folder / word).exists() for word in words if "=" not in word):
                yield folder, words
    for name in tests.traces:
        yield TOP, [*tests.words(name)]


def judged(tests, name, story):
    """What must hold of a run and its sources."""
    tests.is_true(f"{name} fills its activity", story.filled)
    for (number, reference), _ in story.kinds.items():
        action, source = story.trace.actions[number], story.trace.actions[number].links[reference]
        pool = story.pool_name(action, reference)
        other = story.pool_name(story.trace.actions[source[0]], source[1]) if source else pool
        tests.is_true(f"{name}: the link of {number}.{reference} stays in a pool", pool == other and pool in story.model.pools, f"{pool} {other}")
    for cause in story.causes:
        latest = max((story.ends.get(it, 10**9) for it in cause.before), default=0)
        first = min((story.starts[it] for it in cause.after if it in story.starts), default=10**9)
        tests.is_true(f"{name}: the run keeps a {cause.why}", latest <= first, f"{cause.before} before {cause.after}")


def in_domains(tests, name, model, trace):
    """Each value falls into a bin of its field."""
    gathered = Gathered(model, [])
    before = [(bins, bins.at) for bins in gathered.fields.values()]
    outside = []
    for bins, at in before:
        bins.add = lambda value, bins=bins, at=at: outside.append((bins.name, value)) if at(value) is None else None
    gathered.add(trace)
    tests.is_true(f"{name}: values are in their domains", not outside, str(outside[:3]))


def groups_of(story):
    """The actions that start together, by their least one."""
    group = {number: number for number in story.trace.actions}
    for (number, reference), kind in story.kinds.items():
        source = story.trace.actions[number].links[reference]
        if kind == "stream" and source:
            old, new = sorted((group[number], group[source[0]]), reverse=True)
            group = {it: new if at == old else at for it, at in group.items()}
    return group


def another_run(story, choices):
    """The blocks of a run that has one group after another, in any order that the causes allow."""
    group, ended, lines = groups_of(story), set(), []
    before = {number: set() for number in group}
    for cause in story.causes:
        for number in cause.after:
            before[number] |= set(cause.before) - {number}
    left = set(group.values())
    while left:
        members = {it: [number for number in group if group[number] == it] for it in left}
        ready = [it for it in sorted(left) if all(before[number] <= ended for number in members[it])]
        if not ready:
            return None
        taken = choices.choice(ready)
        lines.append("start " + " ".join(f"{number}:{lane}" for lane, number in enumerate(sorted(members[taken]))))
        lines += [f"end {number}" for number in choices.sample(members[taken], len(members[taken]))]
        ended |= set(members[taken])
        left.discard(taken)
    return lines


def taken_by_check(tests, name, words, folder, story, text):
    """Other runs that keep the order are whole ones for the program, so no cause is lacking."""
    header = text.decode().split("\nstart ", 1)[0]
    for turn in range(3):
        lines = another_run(story, random.Random(turn))
        if not tests.is_true(f"{name}: the order has no circle", lines is not None):
            return
        made = tests.folder / "another.trace"
        made.write_text("\n".join([header, *lines, f"done {len(story.trace.actions)}"]) + "\n")
        said = run([tests.program, "check", f"trace={made}", *words], folder).out
        tests.is_same(f"{name}: check of run {turn} in another order", said, b"check whole\n")


def run_all(tests):
    seen = 0
    for folder, words in commands(tests):
        files = [str(folder / word) for word in words if "=" not in word]
        model = None
        for seed in SEEDS:
            words = [f"seed={seed}", *[word for word in words if not word.startswith("seed=")]]
            ran = run([tests.program, "run", "lanes=16", *words], folder)
            if not ran.out.startswith(b"pst 2"):
                break
            model = model or read_model(files)
            name, story = " ".join(words), Story(read(ran.out), model)
            judged(tests, name, story)
            taken_by_check(tests, name, words, folder, story, ran.out)
            in_domains(tests, name, model, story.trace)
            seen += 1
    tests.is_true("scenarios were read", seen > 100, str(seen))
