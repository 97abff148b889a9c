"""From a CSV to the positions of each aircraft."""

from __future__ import annotations

import csv
import re
from collections.abc import Callable, Iterable
from fractions import Fraction
from typing import TextIO

from .fixes import METRE, NAUTICAL_MILE, Course, Degrees, Feet, Fix, Refusal, Remark, is_clock, seconds

KNOT = float(NAUTICAL_MILE / 3600)  # ft/s
LOWEST, HIGHEST = -1000, 60_000  # ft

TIMES = ("lastposupdate", "time")  # the first one that is there is taken
ADDRESSES = ("icao24", "address")
ALTITUDE_UNITS = {"alt_ft": Fraction(1), "alt_m": METRE, "baroaltitude": METRE}
PLANE_UNITS = {"ft": Fraction(1), "m": METRE, "nm": NAUTICAL_MILE}
EMPTY = ("", "null", "none", "nan")

Row = dict[str, str]


def has_address_form(text: str) -> bool:
    """Whether a text is an address that an aircraft can have."""
    return bool(re.fullmatch("[0-9A-Fa-f]{6}", text)) and text.upper() not in ("000000", "FFFFFF")


def digits(row: Row, name: str) -> str:
    """The field, which has to be a number."""
    if not re.fullmatch(r"[+-]?(\d+\.?\d*|\.\d+)([eE][+-]?\d\d?)?", row[name], re.ASCII):
        raise Refusal(f'{name} is "{row[name]}", which is no number')
    return row[name]


class Columns:
    """Which columns of a header are taken, and what a row says by them."""

    def __init__(self, header: list[str]) -> None:
        self.header = header
        twice = next((it for it in header if it and header.count(it) > 1), None)
        if twice:
            raise Refusal(f"two columns have the name {twice}")
        self.time = self.chosen("the time", [it for it in TIMES if it in header][:1], TIMES)
        self.address = self.chosen("the address", [it for it in ADDRESSES if it in header], ADDRESSES)
        altitudes = [it for it in ALTITUDE_UNITS if it in header]
        self.altitude = self.chosen("the pressure altitude", altitudes, ALTITUDE_UNITS)
        self.unit = self.unit_of_plane()
        self.place, self.place_of = self.way()

    @property
    def is_degrees(self) -> bool:
        """Whether places are in degrees."""
        return self.place == ("lat", "lon")

    @property
    def is_reckoned(self) -> bool:
        """Whether places are reckoned from courses."""
        return self.place == ("gs_kt", "track_deg")

    def has(self, *names: str) -> bool:
        """Whether all these columns are there."""
        return all(it in self.header for it in names)

    def chosen(self, what: str, found: list[str], names: Iterable[str]) -> str:
        """The one column that has this."""
        if not found:
            raise Refusal(f'no column has {what} ({" or ".join(names)}); the columns are "{",".join(self.header)}"')
        if len(found) > 1:
            raise Refusal(f"more than one column has {what} ({', '.join(found)}): keep one")
        return found[0]

    def unit_of_plane(self) -> str | None:
        """The unit of the places on the plane, if there are such."""
        units = [it for it in PLANE_UNITS if self.has(f"x_{it}", f"y_{it}")]
        if len(units) + self.has("lat", "lon") > 1:
            raise Refusal("the columns have places of two kinds or units: keep one")
        return units[0] if units else None

    def way(self) -> tuple[tuple[str, ...], Callable[[Row], Degrees | Feet | Course]]:
        """The columns that a place needs, and how it is read."""
        if self.has("gs_kt", "track_deg", "anchor"):
            if not self.unit:
                raise Refusal("the place of an anchor needs the columns x_ft,y_ft or x_m,y_m or x_nm,y_nm")
            return ("gs_kt", "track_deg"), self.course
        if self.unit:
            return (f"x_{self.unit}", f"y_{self.unit}"), self.feet
        if self.has("lat", "lon"):
            return ("lat", "lon"), self.degrees
        raise Refusal(
            "no columns have the place (lat,lon or x_ft,y_ft or x_m,y_m or x_nm,y_nm or gs_kt,track_deg,anchor); "
            f'the columns are "{",".join(self.header)}"'
        )

    def feet(self, row: Row) -> Feet:
        """A place on the plane."""
        return Feet(*(float(Fraction(digits(row, f"{it}_{self.unit}")) * PLANE_UNITS[self.unit]) for it in "xy"))

    def degrees(self, row: Row) -> Degrees:
        """A place on WGS84."""
        latitude, longitude = float(digits(row, "lat")), float(digits(row, "lon"))
        if abs(latitude) > 90 or abs(longitude) > 180:
            raise Refusal(f"lat {latitude}, lon {longitude} is no place: lat is from -90 to 90, lon from -180 to 180")
        return Degrees(latitude, longitude)

    def course(self, row: Row) -> Course:
        """What a place is reckoned from."""
        anchor = None if row["anchor"].lower() in EMPTY else self.feet(row)
        return Course(KNOT * float(digits(row, "gs_kt")), float(digits(row, "track_deg")), anchor)

    def altitude_of(self, row: Row) -> Fraction:
        """The altitude of a row in ft."""
        altitude = Fraction(digits(row, self.altitude)) * ALTITUDE_UNITS[self.altitude]
        if not LOWEST <= altitude <= HIGHEST:
            raise Refusal(f"the altitude is {float(altitude):.0f} ft, and has to be from {LOWEST} to {HIGHEST}")
        return altitude

    def missing(self, row: Row) -> str | None:
        """What a row would have to have, and hasn't."""
        needed = {"the time": (self.time,), "the place": self.place, "the altitude": (self.altitude,)}
        return next((what for what, names in needed.items() if any(row[it].lower() in EMPTY for it in names)), None)


class Table:
    """A CSV: its columns, whether its times have the form hh:mm:ss, and the fixes of each aircraft in the order of the
    file. Where addresses are given, it has the rows of these alone."""

    def __init__(self, source: TextIO, only: list[str], remark: Remark) -> None:
        lines = csv.reader(source, strict=True)
        self.columns = Columns([it.strip().lower() for it in next(lines, [])])
        self.clock: bool | None = None
        self.tracks: dict[str, list[Fix]] = {it: [] for it in only}
        self.only = only
        for fields in lines:
            if any(it.strip() for it in fields):
                try:
                    self.take(lines.line_num, fields, remark)
                except Refusal as it:
                    raise Refusal(f"line {lines.line_num}: {it}") from None
        if not self.tracks:
            raise Refusal("there is no row below the header")

    def take(self, line: int, fields: list[str], remark: Remark) -> None:
        """Takes a row, or says what it lacks."""
        columns = self.columns
        if len(fields) != len(columns.header):
            raise Refusal(f"it has {len(fields)} fields, and the header has {len(columns.header)}")
        row = dict(zip(columns.header, map(str.strip, fields)))
        if not has_address_form(row[columns.address]):
            raise Refusal(
                f'{columns.address} is "{row[columns.address]}", and has to be six digits 0-9A-F, neither 000000 nor '
                "FFFFFF (a spreadsheet spoils addresses: import their column as text)"
            )
        address = row[columns.address].upper()
        if self.only and address not in self.only:
            return
        fixes = self.tracks.setdefault(address, [])
        missing = columns.missing(row)
        if missing:
            remark(f"line {line}: {address}: dropped, {missing} is missing")
        else:
            fixes.append(Fix(line, self.time_of(row), columns.place_of(row), columns.altitude_of(row)))

    def time_of(self, row: Row) -> Fraction:
        """The time of a row, which has the form of the times before it."""
        text = row[self.columns.time]
        if self.clock is None:
            self.clock = is_clock(text)
        if self.clock != is_clock(text):
            raise Refusal(f'{self.columns.time} is "{text}", and the times before it have the other form')
        return seconds(text)
