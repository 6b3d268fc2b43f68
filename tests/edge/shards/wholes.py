"""Small histories of several objects, whose processes go from one object to another, and damage to them."""
import random
import re

from ..histories import ALL_FUNCTIONS, REPLY_WHETHER
from ..judge.like_recorded import played

KINDS = tuple(ALL_FUNCTIONS)
# The replies that a damage puts in the place of another one, by the functions that may have them.
NUMBERS = ("1", "2", "3", "77")
OTHER_REPLIES = {
    "dequeue|pop|extract-min|read|get|del|put": ("nil", *NUMBERS),
    "fetch-add|get-count": ("0", "-1", *NUMBERS),
    "|".join(REPLY_WHETHER): ("true", "false"),
}


def made(seed):
    """A history that is linearizable, of one to seven objects."""
    rng = random.Random(f"whole {seed}")
    kinds = [rng.choice(KINDS) for _ in range(rng.choice((1, 2, 3, 5, 7)))]
    calls = rng.choice((6, 12, 30))
    lost, refused = rng.choice((0, 0, 1, 2)), rng.choice((0, 0, 1, 3))
    how = {"lost": lost, "refused": refused, "nemeses": rng.choice((0, 0, 2)), "values": rng.choice((0, 4))}
    return played(kinds, calls, rng.choice((1, 2, 4)), seed=f"whole {seed}", **how).maps


def replaced(rng, key, values):
    """A damage: another value of this key in one map."""

    def damage(maps):
        at = rng.randrange(len(maps))
        maps[at] = re.sub(rf"(?<={key} )([^,}}]+)", lambda _: rng.choice(values), maps[at], count=1)

    return damage


def without_one(rng):
    def damage(maps):
        del maps[rng.randrange(len(maps))]

    return damage


def doubled(rng):
    def damage(maps):
        maps.insert(rng.randrange(len(maps)), rng.choice(maps))

    return damage


def exchanged(rng):
    def damage(maps):
        one, other = rng.randrange(len(maps)), rng.randrange(len(maps))
        maps[one], maps[other] = maps[other], maps[one]

    return damage


def other_reply(rng):
    """A damage: a reply of another value, so that it may be that no order is valid."""

    def damage(maps):
        told = [(at, replies) for at, text in enumerate(maps) for f, replies in OTHER_REPLIES.items() if re.search(rf":type :ok, :f :({f}),", text)]
        for at, replies in rng.sample(told, min(1, len(told))):
            maps[at] = re.sub(r"(?<=:value )[^,]+", lambda _: rng.choice(replies), maps[at], count=1)

    return damage


def other_byte(rng):
    """A damage: another byte, one fewer, or one more, somewhere within a map."""

    def damage(maps):
        at = rng.randrange(len(maps))
        place, byte = rng.randrange(len(maps[at])), rng.choice("0123456789 {}[]()#:;,-\"\\ax\u00e9")
        maps[at] = maps[at][:place] + rng.choice((byte, "", byte + maps[at][place])) + maps[at][place + 1 :]

    return damage


def damages(rng):
    """Each sort of damage, by its name."""
    return {
        "a map left out": without_one(rng),
        "a map twice": doubled(rng),
        "two maps exchanged": exchanged(rng),
        "another process": replaced(rng, ":process", ("0", "1", "2", "-1", ":nemesis", "nil", '"p"', "9223372036854775808")),
        "another type": replaced(rng, ":type", (":invoke", ":ok", ":fail", ":info", ":what", "7", "[]")),
        "another function": replaced(rng, ":f", (":read", ":enqueue", ":drain", ":acquire", ":contains", ":fetch-add", ":lock", "3")),
        "another value": replaced(rng, ":value", ("nil", "false", "true", "7", "[1 2]", "[1 2 3]", '"x"', ":x", "007")),
        "another object": replaced(rng, ":object", ("0", "1", "2", "-1", ":a", "65535", "4294967296", "1.5")),
        "another reply": other_reply(rng),
        "another byte": other_byte(rng),
    }


# Of this many damages most are replies, since the others mostly leave no history.
DAMAGES = (*("another reply",) * 8, *damages(random.Random()))


def damaged(seed):
    """A made history with one damage, and what that is."""
    rng = random.Random(f"damaged {seed}")
    maps, name = made(seed), rng.choice(DAMAGES)
    damages(rng)[name](maps)
    return maps, name
