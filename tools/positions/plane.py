"""From degrees on WGS84 to a plane."""

from __future__ import annotations

import math
from collections.abc import Iterable
from dataclasses import dataclass
from fractions import Fraction

from .fixes import METRE, Degrees, Feet

AXIS = 6378137.0  # m
FLATTENING = 1 / 298.257223563
SQUARED_ECCENTRICITY = FLATTENING * (2 - FLATTENING)


def earth_centred(place: Degrees, height: float) -> tuple[float, float, float]:
    """The coordinates of a place at a height over WGS84, in metres from the centre of the earth."""
    latitude, longitude = math.radians(place.latitude), math.radians(place.longitude)
    normal = AXIS / math.sqrt(1 - SQUARED_ECCENTRICITY * math.sin(latitude) ** 2)
    out = (normal + height) * math.cos(latitude)
    up = (normal * (1 - SQUARED_ECCENTRICITY) + height) * math.sin(latitude)
    return out * math.cos(longitude), out * math.sin(longitude), up


def topocentric(place: Degrees, height: float, origin: Degrees, origin_height: float) -> tuple[float, float, float]:
    """How far east of an origin, north of it and above it a place is, in metres."""
    here, there = earth_centred(origin, origin_height), earth_centred(place, height)
    x, y, z = (b - a for a, b in zip(here, there))
    latitude, longitude = math.radians(origin.latitude), math.radians(origin.longitude)
    out = math.cos(longitude) * x + math.sin(longitude) * y
    return (
        math.cos(longitude) * y - math.sin(longitude) * x,
        math.cos(latitude) * z - math.sin(latitude) * out,
        math.cos(latitude) * out + math.sin(latitude) * z,
    )


def half_turn(degrees: float) -> float:
    """The same direction, from -180 to below 180 degrees."""
    return (degrees + 180) % 360 - 180


@dataclass(frozen=True)
class Plane:
    """The plane that touches WGS84, raised by a height in ft, in its middle."""

    middle: Degrees
    height: float

    @staticmethod
    def around(places: list[Degrees], altitudes: Iterable[Fraction]) -> Plane:
        """The plane at the middle of the box of the places, at the mean of the altitudes."""
        first = places[0].longitude
        easts = [half_turn(it.longitude - first) for it in places]
        norths = [it.latitude for it in places]
        middle = Degrees((min(norths) + max(norths)) / 2, half_turn(first + (min(easts) + max(easts)) / 2))
        return Plane(middle, float(sum(altitudes) / len(places)))

    def lay(self, place: Degrees) -> Feet:
        """A place at this plane's height, laid onto it."""
        metres = self.height / float(METRE)
        east, north, _ = topocentric(place, metres, self.middle, metres)
        return Feet(east * float(METRE), north * float(METRE))
