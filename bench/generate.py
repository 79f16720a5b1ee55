"""The lines of a replay over many features, which bench/measure.py measures. They depend only on the number of features.

A feature has two strategies. The first one has two constraints and names a segment. One of these constraints, on the country, has 5
values for most features, 20 for one in ten, and 1,000 for one in 500. Three of ten features have two variants. The documents stay
below the limit of 16,777,216 bytes.
"""
import json
import random

CLIENT, FRONT = "*:dev.client", "*:dev.front"


def name_of(place):
    return f"team-{place % 37:02}.feature-{place:05}"


def second_constraint(draws, place):
    return [
        {"contextName": "age", "operator": "NUM_GTE", "value": str(draws.randrange(90))},
        {"contextName": "version", "operator": "SEMVER_GT", "value": f"{draws.randrange(5)}.{draws.randrange(20)}.0"},
        {"contextName": "currentTime", "operator": "DATE_AFTER", "value": f"20{draws.randrange(10, 40)}-03-01T12:00:00.000Z"},
        {"contextName": "email", "operator": "STR_ENDS_WITH", "values": ["@example.com"], "caseInsensitive": True},
    ][place % 4]


def feature(place, segments, step=0):
    draws = random.Random(place * 7919 + step)
    values = 1000 if place % 500 == 7 else 20 if place % 10 == 3 else 5
    country = {
        "contextName": "country",
        "operator": "IN" if place % 3 else "NOT_IN",
        "values": [f"c{draws.randrange(10**6):06}" for _ in range(values - 1)] + ["de"],
    }
    rollout = {
        "name": "flexibleRollout",
        "parameters": {"groupId": name_of(place), "rollout": str(draws.randrange(101)), "stickiness": "default"},
        "constraints": [country, second_constraint(draws, place)],
        "segments": [1 + place % segments],
    }
    users = {"name": "userWithId", "parameters": {"userIds": ", ".join(str(draws.randrange(10**6)) for _ in range(8))}}
    variants = [{"name": "blue", "weight": 500}, {"name": "green", "weight": 500}]
    return {
        "name": name_of(place),
        "enabled": place % 10 != 9,
        "description": f"Rolls out step {step} of work item {place}",
        "strategies": [rollout, {"name": "default"} if place % 4 == 1 else users],
        "variants": variants if place % 10 < 3 else [],
    }


def segment(number):
    return {
        "id": number,
        "constraints": [
            {"contextName": "plan", "operator": "NOT_IN", "values": [f"p{item}-{number}" for item in range(20)]},
            {"contextName": "age", "operator": "NUM_LT", "value": "120"},
        ],
    }


def query(user):
    draws = random.Random(user)
    return (
        f"userId={draws.randrange(10**6)}&sessionId=s{user}&properties[country]={'de' if user % 2 else 'fr'}"
        f"&properties[age]={draws.randrange(100)}&properties[version]={draws.randrange(5)}.3.1"
        f"&properties[email]=u{user}%40Example.com&properties[plan]=gold&currentTime=2024-05-01T00:00:00Z"
    )


def ask(target, token, **more):
    return {"op": "ask", "token": token, "target": target, "now": 1714521600000, **more}


def batch(events, **more):
    return {"op": "batch", "environment": "dev", "batch": {"events": events, **more}}


def changes(count, size, segments, after, step):
    """A batch that changes `count` features."""
    return batch(
        [
            {"type": "feature-updated", "eventId": after + 1 + item, "feature": feature(item * 37 % size, segments, step)}
            for item in range(count)
        ],
        after=after,
    )


def kinds(size):
    """The lines of a replay over `size` features, in order: a dict from the name of each kind to its lines."""
    segments = max(5, size // 100)
    features = [feature(place, segments) for place in range(size)]
    hydration = {"type": "hydration", "eventId": 1, "features": features, "segments": [segment(1 + it) for it in range(segments)]}
    tokens = [{"token": CLIENT, "type": "client", "projects": ["*"]}, {"token": FRONT, "type": "frontend", "projects": ["*"]}]
    return {
        "the tokens": [{"op": "tokens", "tokens": tokens}],
        "a hydration": [batch([hydration])],
        "the toggles that are on": [ask(f"/api/frontend?{query(user)}", FRONT) for user in range(3)],
        "all toggles": [ask(f"/api/frontend/all?{query(user)}", FRONT) for user in range(3)],
        "a feed": [ask("/api/client/features", CLIENT)],
        "a feed, for a client that knows no segments": [ask("/api/client/features", CLIENT, spec="4.1.9")],
        "a feed that is known": [ask("/api/client/features", CLIENT, tag='"0000000000000000-1-0-1"') for _ in range(3)],
        "one feature": [ask(f"/api/client/features/{name_of(place * 37 % size)}", CLIENT) for place in range(5)],
        "a batch of one change": [changes(1, size, segments, 1 + turn, 1 + turn) for turn in range(3)],
        "a batch of 100 changes": [changes(100, size, segments, 4, 9)],
    }


def text_of(line):
    return json.dumps(line, separators=(",", ":")) + "\n"
