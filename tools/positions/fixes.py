"""Positions, times, and the rows of one aircraft."""

from __future__ import annotations

import math
import re
from collections.abc import Callable
from dataclasses import dataclass
from fractions import Fraction
from typing import Generic, TypeVar

METRE = 1 / Fraction("0.3048")  # ft
NAUTICAL_MILE = 1852 * METRE  # ft


class Refusal(Exception):
    """Why the rows can't become a text of tracks, as a sentence."""


Remark = Callable[[str], None]


@dataclass(frozen=True)
class Degrees:
    """A place on WGS84."""

    latitude: float
    longitude: float


@dataclass(frozen=True)
class Feet:
    """A place on the plane, in ft: x to the east, y to the north."""

    x: float
    y: float


@dataclass(frozen=True)
class Course:
    """What a place is reckoned from: ground speed in ft/s, track in degrees, and the place, where it is the anchor."""

    speed: float
    track: float
    anchor: Feet | None


P = TypeVar("P", Degrees, Feet, Course)


@dataclass(frozen=True)
class Fix(Generic[P]):
    """Where an aircraft was: the line of the file, the time in s, the place, and the pressure altitude in ft."""

    line: int
    time: Fraction
    place: P
    altitude: Fraction


@dataclass(frozen=True)
class Run:
    """The time of cycle 1 in s, the number of cycles, and the elevation of the ground in ft."""

    start: Fraction
    cycles: int
    ground: int

    @property
    def last(self) -> Fraction:
        """The time of the last cycle."""
        return self.start + self.cycles - 1


def nearest(value: float | Fraction) -> int:
    """The nearest whole number, the greater of two as near."""
    numerator, denominator = value.as_integer_ratio()
    return (2 * numerator + denominator) // (2 * denominator)


def is_clock(text: str) -> bool:
    """Whether a time has the form hh:mm:ss, and not that of a number."""
    return ":" in text


def seconds(text: str) -> Fraction:
    """The seconds of hh:mm:ss or of a number."""
    clock = re.fullmatch(r"([01]?\d|2[0-3]):([0-5]\d):([0-5]\d(\.\d+)?)", text, re.ASCII)
    if clock:
        return 3600 * Fraction(clock[1]) + 60 * Fraction(clock[2]) + Fraction(clock[3])
    if re.fullmatch(r"-?\d+(\.\d+)?", text, re.ASCII):
        return Fraction(text)
    raise Refusal(f'"{text}" is no time: neither hh:mm:ss nor seconds')


def shown(time: Fraction, clock: bool) -> str:
    """A time in the form of the file, to the millisecond."""
    whole, thousandths = divmod(nearest(1000 * time), 1000)
    text = f"{whole // 3600:02}:{whole // 60 % 60:02}:{whole % 60:02}" if clock else str(whole)
    return f"{text}.{thousandths:03}".rstrip("0") if thousandths else text


def by_time(address: str, fixes: list[Fix[P]], clock: bool, remark: Remark) -> list[Fix[P]]:
    """The fixes of an aircraft in the order of time, without copies."""
    if clock and any(abs(b.time - a.time) > 12 * 3600 for a, b in zip(fixes, fixes[1:])):
        raise Refusal(f"{address}: the clock passes midnight, or rows are half a day apart: give the times in seconds")
    ordered = sorted(fixes, key=lambda it: it.time)
    if ordered != fixes:
        remark(f"{address}: its rows don't stand in the order of time; they are taken in that order")
    kept = ordered[:1]
    for fix in ordered[1:]:
        repeated = what_is_repeated(address, kept[-1], fix)
        if repeated:
            remark(f"line {fix.line}: {address}: dropped, it repeats {repeated} of line {kept[-1].line}")
        else:
            kept.append(fix)
    return kept


def what_is_repeated(address: str, before: Fix[P], fix: Fix[P]) -> str | None:
    """What makes a fix a copy of the one before."""
    if nearest(1000 * fix.time) != nearest(1000 * before.time):
        return "the place" if isinstance(fix.place, Degrees) and fix.place == before.place else None
    if fix.place != before.place:
        raise Refusal(f"line {fix.line}: {address} is in another place than in line {before.line}, at the same time")
    return "the time"


def run_of(tracks: dict[str, list[Fix[P]]], start: Fraction | None, cycles: int | None, ground: int) -> Run:
    """The run that is asked for; where nothing is asked, the whole seconds in which all aircraft have positions."""
    if start is None:
        start = Fraction(math.ceil(max(it[0].time for it in tracks.values())))
    if cycles is None:
        cycles = math.floor(min(it[-1].time for it in tracks.values()) - start) + 1
        if not 1 <= cycles <= 600:
            covered = max(cycles, 0)
            raise Refusal(f"all have positions in {covered} cycles, and a run has 1 to 600: see --start and --cycles")
    return Run(start, cycles, ground)


def within(address: str, fixes: list[Fix[P]], run: Run, clock: bool) -> list[Fix[P]]:
    """The fixes from the last one at or before cycle 1 to the first one at or after the last cycle."""
    before = [at for at, it in enumerate(fixes) if it.time <= run.start]
    after = [at for at, it in enumerate(fixes) if it.time >= run.last]
    if not before or not after:
        covered, asked = (
            f"from {shown(first, clock)} to {shown(last, clock)}"
            for first, last in ((fixes[0].time, fixes[-1].time), (run.start, run.last))
        )
        raise Refusal(f"{address} has positions {covered}, and the run is {asked}: see --start, --cycles, --only")
    return fixes[before[-1] : after[0] + 1]
