"""delivery.py PROGRAM: delivers the batches of an upstream's history to a replica, lost, duplicated and out of order.

A replay reads the batches as its lines. After each batch it prints the verdict and the replica's number, and two tokens ask for the
whole state and for the changes. An independent model in this file computes the expected output: the replica's state is the history's
state at the replica's number, as far as the replica's tokens see it. Prints the first line that differs. If none does, prints how many
batches got each verdict.
"""
import collections
import itertools
import json
import random
import subprocess
import sys

DELIVERIES = 4_000
# the number of commands in each epoch of the upstream
COMMANDS = {0: 1_500, 1: 400, 7: 100}
NAMES = [f"f{number}" for number in range(10)]
ALL, SEEN = ["A", "B", "C"], ["A", "B"]
# the tokens of the replica's token book, and the projects that they see
TOKENS = [("A:dev.two", SEEN), ("B:dev.one", ["B"])]

draw = random.Random(7)


def text(value):
    return json.dumps(value, sort_keys=True, separators=(",", ":"))


# ---- a state: features by name, each with its project and whether it is on, and the ids of segments


class State:
    def __init__(self, features=(), segments=()):
        self.features, self.segments = dict(features), set(segments)

    def project(self, event):
        """The project of the feature that an event names, or None if there is no such feature."""
        return self.features.get(event.get("name"), (None, None))[0]

    def after(self, event):
        new = State(self.features, self.segments)
        if event["kind"] == "feature":
            new.features[event["name"]] = event["project"], event["on"]
        elif event["kind"] == "no feature":
            new.features.pop(event["name"], None)
        elif event["kind"] == "segment":
            new.segments.add(event["id"])
        else:
            new.segments.discard(event["id"])
        return new

    def seen(self, projects):
        return State({name: it for name, it in self.features.items() if it[0] in projects}, self.segments)

    def documents(self):
        return {"features": [feature(name, *it) for name, it in sorted(self.features.items())],
                "segments": [{"constraints": [], "id": of} for of in sorted(self.segments)]}


def feature(name, project, on):
    return {"dependencies": [], "enabled": on, "impressionData": False, "name": name, "project": project, "stale": False,
            "strategies": [], "type": "release", "variants": []}


# ---- batches: a hydration has a state; a batch of changes has events and the number before them

Batch = collections.namedtuple("Batch", "epoch after number state events")
Entry = collections.namedtuple("Entry", "number event was")


def shown(entry, projects):
    """The event as seen by a token for these projects, or None if the token doesn't see it. A feature that left them is seen as removed."""
    number, event, was = entry
    if "id" in event or event.get("project") in projects and event["kind"] == "feature":
        return number, event
    return (number, {"kind": "no feature", "name": event["name"], "project": was}) if was in projects else None


def written(number, event):
    forms = {"feature": lambda: {"feature": feature(event["name"], event["project"], event["on"]), "type": "feature-updated"},
             "no feature": lambda: {"featureName": event["name"], "project": event["project"], "type": "feature-removed"},
             "segment": lambda: {"segment": {"constraints": [], "id": event["id"]}, "type": "segment-updated"},
             "no segment": lambda: {"segmentId": event["id"], "type": "segment-removed"}}
    return {"eventId": number, **forms[event["kind"]]()}


def document(batch):
    epoch = {"epoch": batch.epoch} if batch.epoch else {}
    if batch.state:
        return {**epoch, "events": [{"eventId": batch.number, "type": "hydration", **batch.state.documents()}]}
    return {**epoch, "after": batch.after, "events": [written(*event) for event in batch.events]}


class Version:
    """The version that a server has: a state at a number, and its entries: all numbered events after the number `base`."""

    def __init__(self, epoch, number, state):
        self.epoch, self.number, self.base, self.state, self.entries = epoch, number, number, state, []

    def after(self, events):
        """The version after these numbered events. Events that it already has are skipped."""
        new = Version(self.epoch, self.number, self.state)
        new.base, new.entries = self.base, list(self.entries)
        for number, event in events:
            if number > self.number:
                new.entries.append(Entry(number, event, new.state.project(event)))
                new.number, new.state = number, new.state.after(event)
        return new

    def answer(self, since, projects):
        """The batch for a client that is at the number `since`, or None if nothing is new."""
        if since == self.number:
            return None
        if since is None or not self.base <= since <= self.number:
            return Batch(self.epoch, None, self.number, self.state.seen(projects), None)
        events = [event for entry in self.entries if entry.number > since if (event := shown(entry, projects))]
        return Batch(self.epoch, since, events[-1][0], None, events) if events else None


def history(epoch, commands):
    """The upstream's versions in one epoch, starting with the empty one."""
    last = Version(epoch, 0, State())
    yield last
    for number in range(1, commands + 1):
        name, of = draw.choice(NAMES), draw.randrange(3)
        event = draw.choices([
            {"kind": "feature", "name": name, "project": draw.choice(ALL), "on": draw.random() < 0.5},
            {"kind": "no feature", "name": name, "project": last.state.project({"name": name})},
            {"kind": "segment", "id": of}, {"kind": "no segment", "id": of}], [6, 2, 1, 1])[0]
        if event["kind"] == "no feature" and name not in last.state.features:
            event = {"kind": "feature", "name": name, "project": "A", "on": True}
        last = last.after([(number, event)])
        yield last


# ---- the replica


def verdict(version, held, batch):
    """The verdict on a batch, by the table of verdicts in docs/FORMATS.md."""
    if batch.state:
        if version is None:
            return "apply"
        had, comes = (version.epoch, version.number), (batch.epoch, batch.number)
        return "old" if comes < had else "repeat" if comes == had and not held else "apply"
    if held or version is None:
        return "held" if held else "gap"
    if batch.epoch != version.epoch:
        return "old" if batch.epoch < version.epoch else "gap"
    return "repeat" if batch.number <= version.number else "gap" if batch.after > version.number else "apply"


def revision(epoch, number):
    return f"{epoch}.{number}" if epoch else f"{number}"


def tag(place, epoch, number):
    return f'"{0:016x}-1-{place}-{revision(epoch, number)}"'


class Replica:
    """A model of the replica: the input lines of the replay, and the lines that the replay must print."""

    def __init__(self):
        self.version, self.held, self.front = None, False, 1
        tokens = [{"token": token, "type": "client", "projects": seen} for token, seen in TOKENS]
        self.lines, self.printed = [text({"op": "tokens", "tokens": tokens})], ["1: tokens generation 1 front 1"]
        self.verdicts = collections.Counter()

    def line(self, given, prints):
        self.lines.append(text(given))
        self.printed.append(f"{len(self.lines)}: {prints}")

    def take(self, batch, is_as):
        """Takes a batch. `is_as` returns the history's version at an epoch and number."""
        does = verdict(self.version, self.held, batch)
        self.verdicts[does] += 1
        if does == "apply":
            number = batch.number
            self.version = Version(batch.epoch, number, batch.state) if batch.state else self.version.after(batch.events)
            # whatever was delivered before, the state is the history's, as far as the replica sees it
            self.version.state = is_as(batch.epoch, number).state.seen(SEEN)
            self.held, self.front = False, self.front + 1
        self.held |= does == "gap"
        at = revision(self.version.epoch, self.version.number) if self.version else "-"
        self.line({"op": "batch", "environment": "dev", "batch": document(batch)}, f"{does} number {at} front {self.front}")

    def asks(self):
        for place, (token, projects) in enumerate(TOKENS):
            self.ask(token, "/api/client/features", None, lambda: self.feed(place, projects))
            since = self.version and max(0, self.version.number - draw.choice([0, 1, 2, 9, 99]))
            asked = tag(place, self.version.epoch if self.version else 0, since or 0)
            self.ask(token, "/api/client/delta", asked, lambda: self.changes(place, projects, since, asked))

    def ask(self, token, target, asked, answer):
        status, its_tag, body = answer() if self.version else (503, "-", '{"error":"NotReady"}')
        given = {"op": "ask", "token": token, "target": target, **({"tag": asked} if asked else {})}
        self.line(given, f"front {self.front} status {status} tag {its_tag} body {body}")

    def feed(self, place, projects):
        its_tag = tag(place, self.version.epoch, self.version.number)
        meta = {"etag": its_tag, "revisionId": self.version.number, **({"epoch": self.version.epoch} if self.version.epoch else {})}
        return 200, its_tag, text({**self.version.state.seen(projects).documents(), "meta": meta, "version": 2,
                                   "query": {"environment": "dev", "projects": projects}})

    def changes(self, place, projects, since, asked):
        batch = self.version.answer(since, projects)
        return (200, tag(place, batch.epoch, batch.number), text(document(batch))) if batch else (304, asked, "")


def sent(versions, current, replica):
    """A batch of the upstream, or of a server a few commands behind it, that is made for this replica, for a client without a state, or for
    one at most two commands behind the server. None if nothing is new."""
    version = versions[max(0, current - draw.choice([0, 0, 0, 0, 0, 1, 5]))]
    has = replica.version.number if replica.version and replica.version.epoch == version.epoch else None
    since = draw.choices([has, None, max(0, version.number - draw.randrange(3))], [8, 2, 4])[0]
    return version.answer(since, SEEN)


def delivered():
    """The model of the replica after all deliveries. Some batches arrive late, some twice, some not at all."""
    lines = {epoch: list(history(epoch, count)) for epoch, count in COMMANDS.items()}
    is_as = lambda epoch, number: lines[epoch][number]
    moments = list(itertools.chain.from_iterable(lines.values()))
    replica, on_the_way, count = Replica(), [], 0
    while count < DELIVERIES:
        now = moments[min(len(moments) - 1, count * len(moments) // DELIVERIES)]
        if batch := sent(lines[now.epoch], now.number, replica):
            on_the_way += [batch] * draw.choices([0, 1, 2], [3, 3, 1])[0]
        if len(on_the_way) > 5 or on_the_way and draw.random() < 0.4:
            replica.take(on_the_way.pop(draw.randrange(len(on_the_way))), is_as)
            replica.asks()
            count += 1
    replica.take(moments[-1].answer(None, SEEN), is_as)
    replica.asks()
    return replica


replica = delivered()
run = subprocess.run([sys.argv[1], "replay"], input="".join(line + "\n" for line in replica.lines), text=True, capture_output=True)
if run.returncode != 0 or run.stdout.splitlines() != replica.printed:
    for line, expected, found in itertools.zip_longest(replica.lines, replica.printed, run.stdout.splitlines()):
        if expected != found:
            sys.exit(f"{line}\nmust print\n{expected}\nbut printed\n{found}")
    sys.exit(f"the replay ended with {run.returncode}")
if set(replica.verdicts) != {"apply", "repeat", "old", "gap", "held"}:
    sys.exit(f"a verdict never came: {replica.verdicts}")
print(", ".join(f"{does} {count}" for does, count in sorted(replica.verdicts.items())))
