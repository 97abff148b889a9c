"""From ground speeds and tracks to places."""

from __future__ import annotations

import math
from dataclasses import replace
from fractions import Fraction

from .fixes import Course, Feet, Fix, Refusal
from .plane import half_turn


def moved(a: Fix[Course], b: Fix[Course], begin: Fraction, end: Fraction) -> tuple[float, float]:
    """How far east and north, in ft, the course from a to b leads between two moments: the integral of the velocity, by
    Simpson's rule."""
    turn = half_turn(b.place.track - a.place.track)

    def velocity(time: Fraction) -> tuple[float, float]:
        share = float((time - a.time) / (b.time - a.time))
        speed = a.place.speed + share * (b.place.speed - a.place.speed)
        track = math.radians(a.place.track + share * turn)
        return speed * math.sin(track), speed * math.cos(track)

    three = zip(velocity(begin), velocity((begin + end) / 2), velocity(end))
    east, north = (float(end - begin) * (u + 4 * v + w) / 6 for u, v, w in three)
    return east, north


def moments(a: Fraction, b: Fraction) -> list[Fraction]:
    """Two times, and the whole seconds between them."""
    return [a, *map(Fraction, range(math.floor(a) + 1, math.ceil(b))), b]


def from_first(fixes: list[Fix[Course]]) -> list[Fix[Feet]]:
    """The fixes with places a second apart, reckoned from the first row at 0, 0."""
    x = y = 0.0
    found = [replace(fixes[0], place=Feet(x, y))]
    for a, b in zip(fixes, fixes[1:]):
        times = moments(a.time, b.time)
        for begin, end in zip(times, times[1:]):
            east, north = moved(a, b, begin, end)
            x, y = x + east, y + north
            altitude = a.altitude + (b.altitude - a.altitude) * (end - a.time) / (b.time - a.time)
            found.append(Fix(b.line, end, Feet(x, y), altitude))
    return found


def reckoned(address: str, fixes: list[Fix[Course]]) -> list[Fix[Feet]]:
    """The fixes with places a second apart, reckoned from the courses and the anchor."""
    anchors = [it for it in fixes if it.place.anchor]
    if len(anchors) != 1:
        raise Refusal(f"{address} has {len(anchors)} rows with an anchor, and has to have one")
    found = from_first(fixes)
    here = next(it.place for it in found if it.time == anchors[0].time)
    there = anchors[0].place.anchor
    return [replace(it, place=Feet(it.place.x + there.x - here.x, it.place.y + there.y - here.y)) for it in found]
