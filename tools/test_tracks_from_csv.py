#!/usr/bin/env python3
"""Tests of tools/tracks-from-csv and tools/positions. tools/check-docs runs them, and so does this file by itself.

Where an expected value comes from stands at each test.
"""

import contextlib
import importlib.machinery
import importlib.util
import io
import math
import os
import random
import sys
import unittest
from decimal import Decimal, localcontext
from fractions import Fraction

sys.dont_write_bytecode = True
TOOLS = os.path.dirname(os.path.realpath(__file__))
sys.path.insert(0, TOOLS)

from positions.fixes import NAUTICAL_MILE, Degrees
from positions.plane import Plane, earth_centred, topocentric


def loaded():
    """The script as a module."""
    loader = importlib.machinery.SourceFileLoader("tracks_from_csv", f"{TOOLS}/tracks-from-csv")
    module = importlib.util.module_from_spec(importlib.util.spec_from_loader(loader.name, loader))
    loader.exec_module(module)
    return module


SCRIPT = loaded()

FEET = "time,address,x_ft,y_ft,alt_ft"
WGS84 = "time,address,lat,lon,alt_ft"
COURSE = "time,address,gs_kt,track_deg,anchor,x_ft,y_ft,alt_ft"


def answered(words, rows):
    """The status, the lines of the text, and the remarks without the name of the script."""
    out, errors = io.StringIO(), io.StringIO()
    status = SCRIPT.main(words.split(), io.StringIO("\n".join(rows) + "\n"), out, errors)
    remarks = [it.removeprefix("tracks-from-csv: ") for it in errors.getvalue().splitlines()]
    return status, out.getvalue().splitlines(), remarks


def degrees(whole, minutes, seconds):
    """Degrees of degrees, minutes and seconds."""
    return whole + minutes / 60 + seconds / 3600


class Geodesy(unittest.TestCase):
    """WGS84."""

    # The example of "Geographic/geocentric conversions" in IOGP's Guidance Note 373-7-2 (EPSG), to the millimetre.
    EPSG_POINT = Degrees(degrees(53, 48, 33.82), degrees(2, 7, 46.38))

    def test_published_geocentric(self):
        for found, published in zip(earth_centred(self.EPSG_POINT, 73.0), (3771793.968, 140253.342, 5124304.349)):
            self.assertAlmostEqual(found, published, delta=0.0006)

    # The example of "Geographic/topocentric conversions" in the same note, to the millimetre.
    def test_published_topocentric(self):
        found = topocentric(self.EPSG_POINT, 73.0, Degrees(55.0, 5.0), 200.0)
        for one, published in zip(found, (-189013.869, -128642.040, -4220.171)):
            self.assertAlmostEqual(one, published, delta=0.0006)

    # On the equator a minute of longitude is pi*6378137/10800 = 1855.3248 m; the chord is as long, to 1/100 mm.
    def test_minute_on_the_equator(self):
        plane = Plane.around([Degrees(0.0, -1 / 120), Degrees(0.0, 1 / 120)], [Fraction(0), Fraction(0)])
        self.assertAlmostEqual(2 * plane.lay(Degrees(0.0, 1 / 120)).x * 0.3048, 1855.3248, delta=0.0001)

    # The definition of WGS84 (6378137 m, 1/298.257223563) in decimals of 40 digits, with series for sine and cosine.
    def test_decimals(self):
        places = [(0.0, 0.0, 0.0), (47.775, 9.175, 10_972.8), (-10.44, -53.31, 11_277.6), (65.0, 179.5, 300.0)]
        for latitude, longitude, height in places:
            found = earth_centred(Degrees(latitude, longitude), height)
            for one, exact in zip(found, exact_earth_centred(latitude, longitude, height)):
                self.assertAlmostEqual(one, float(exact), delta=1e-6)

    # The distance in space by these decimals: within 30 NM and 1,000 ft of the mean the plane's is right to 0.01 %.
    def test_slant_range(self):
        random.seed(1)
        for _ in range(100):
            plane, (a, b) = random_pair(30, 1000)
            self.assertLess(abs(slant(plane, a, b) / exact_slant(a, b) - 1), 0.0001)

    # 179.9 E and 179.9 W are 0.2 degrees apart: pi*6378137/900 m on the equator; the chord is shorter by 1 mm in 22 km.
    def test_across_the_date_line(self):
        plane = Plane.around([Degrees(0.0, 179.9), Degrees(0.0, -179.9)], [Fraction(0), Fraction(0)])
        self.assertAlmostEqual(plane.lay(Degrees(0.0, -179.9)).x * 0.3048, math.pi * 6378137 / 1800, delta=0.01)
        self.assertAlmostEqual(plane.lay(Degrees(0.0, 179.9)).x * 0.3048, -math.pi * 6378137 / 1800, delta=0.01)


def series(angle, first, power):
    """Sine (first is the angle, power 1) or cosine (1 and 0) of an angle by its series."""
    term = total = first
    while abs(term) > Decimal(10) ** -38:
        term *= -angle * angle / ((power + 1) * (power + 2))
        total += term
        power += 2
    return total


def exact_earth_centred(latitude, longitude, height):
    """The coordinates of a place in metres, in decimals."""
    with localcontext() as context:
        context.prec = 40
        pi = Decimal("3.1415926535897932384626433832795028841971")
        north, east = Decimal(latitude) * pi / 180, Decimal(longitude) * pi / 180
        axis, flattening = Decimal(6378137), 1 / Decimal("298.257223563")
        squared = 2 * flattening - flattening**2
        sine, cosine = series(north, north, 1), series(north, Decimal(1), 0)
        normal = axis / (1 - squared * sine**2).sqrt()
        out = (normal + Decimal(height)) * cosine
        up = (normal * (1 - squared) + Decimal(height)) * sine
        return out * series(east, Decimal(1), 0), out * series(east, east, 1), up


def exact_slant(a, b):
    """The straight distance in metres between two aircraft, given by place and height in ft."""
    places = [exact_earth_centred(place.latitude, place.longitude, height * 0.3048) for place, height in (a, b)]
    return float(sum((p - q) ** 2 for p, q in zip(*places)).sqrt())


def slant(plane, a, b):
    """The distance in metres on the plane and in altitude."""
    p, q = plane.lay(a[0]), plane.lay(b[0])
    return 0.3048 * math.hypot(p.x - q.x, p.y - q.y, a[1] - b[1])


def random_pair(miles, feet):
    """A plane, and two aircraft at most 15 NM apart: so many ft above or below its height, and at most so many miles
    from its middle, mostly just so many."""
    middle, height = Degrees(random.uniform(-65, 65), random.uniform(-180, 180)), random.uniform(10_000, 40_000)
    while True:
        ways = [(miles * min(1, random.uniform(0, 2)), random.uniform(0, 2 * math.pi)) for _ in "ab"]
        spots = [(way * math.sin(angle), way * math.cos(angle)) for way, angle in ways]
        if math.dist(*spots) <= 15:
            break
    wide = math.cos(math.radians(middle.latitude))
    places = [Degrees(middle.latitude + y / 60, middle.longitude + x / 60 / wide) for x, y in spots]
    return Plane(middle, height), [(it, height + random.choice((-feet, feet))) for it in places]


class Texts(unittest.TestCase):
    """The text of tracks. Expected values are by hand."""

    def test_feet(self):
        rows = [
            FEET,
            "0.0,400a01,0,-0.5,35000",
            "10.0,400A01,7600.5,0.49,35000.01",
            "-0.25,400B02,91200,0,35300",
            "9.25,400B02,83980,1,35300.5",
        ]
        wanted = [
            "tracks,1",
            "run,10,0",
            "craft,400A01,RA",
            "craft,400B02,TA",
            "at,400A01,0,0,0,2100000",
            "at,400A01,10000,7601,0,2100001",
            "at,400B02,-250,91200,0,2118000",
            "at,400B02,9250,83980,1,2118030",
            "end",
        ]
        status, text, remarks = answered("--ground 0 --kind 400b02=TA", rows)
        self.assertEqual((status, text), (0, wanted))
        self.assertEqual(remarks, ["cycle 1 is 0, cycle 10 is 9", "400A01: 2 positions", "400B02: 2 positions"])

    # A foot is 0.3048 m and a nautical mile 1852 m.
    def test_units(self):
        for unit, one in ("ft", "6096"), ("m", "1858.0608"), ("nm", "1.00327257019438444924"):
            for altitude, value in ("alt_ft", "10000"), ("alt_m", "3048"), ("baroaltitude", "3048"):
                rows = [f"time,address,x_{unit},y_{unit},{altitude}", f"5,400A01,{one},-{one},{value}"]
                self.assertEqual(answered("--ground 0", rows)[1][3], "at,400A01,0,6096,-6096,600000")

    def test_clock_and_run(self):
        rows = ["Time, Address ,x_ft,y_ft,alt_ft,note"]
        rows += [f"21:59:{it},400A01,{it},0,1000,x" for it in (54.5, 55.5, 56.5, 57.5, 58.5, 59.5)]
        rows += ["22:00:02,400A01,62,0,1000,x"]
        status, text, remarks = answered("--ground -20 --start 21:59:57 --cycles 4", rows)
        self.assertEqual((status, remarks[0]), (0, "cycle 1 is 21:59:57, cycle 4 is 22:00:00"))
        times = [it.split(",")[2] for it in text if it.startswith("at")]
        self.assertEqual(times, ["-500", "500", "1500", "2500", "5000"])
        self.assertEqual(text[1], "run,4,-20")
        self.assertEqual(answered("--ground 0", rows)[2][0], "cycle 1 is 21:59:55, cycle 8 is 22:00:02")

    def test_only(self):
        rows = ["time,icao24,x_ft,y_ft,alt_ft"] + [f"{time},40000{it},0,{it},0" for it in (1, 2, 3) for time in (0, 1)]
        crafts = [it for it in answered("--ground 0 --only 400003 --only 400001", rows)[1] if it.startswith("craft")]
        self.assertEqual(crafts, ["craft,400003,RA", "craft,400001,RA"])

    # OpenSky's state vectors: each second a row; the position of the second row is that of the first one.
    def test_state_vectors(self):
        rows = [
            "time,icao24,lat,lon,velocity,heading,vertrate,onground,baroaltitude,geoaltitude,lastposupdate,lastcontact",
            "1162137600,a7c957,0.0,-0.01,210,90,0,false,11277.6,11500,1162137599.75,1162137599.9",
            "1162137601,a7c957,0.0,-0.01,210,90,0,false,11277.6,11500,1162137599.75,1162137600.9",
            "1162137602,a7c957,0.0,-0.004,210,90,0,false,NULL,11500,1162137600.8,1162137601.9",
            "1162137603,a7c957,0.0,0.0,210,90,0,false,11277.6,11500,1162137601.5,1162137602.9",
            "1162137604,a7c957,0.0,0.01,210,90,0,false,11277.6,11500,1162137603.25,1162137603.9",
        ]
        status, text, remarks = answered("--ground 0", rows)
        self.assertEqual(status, 0)
        # pi*6378137/18000 m at 37,000 ft above the equator: times (1 + 11277.6/6378137), in ft
        wide = round(math.pi * (6378137 + 11277.6) / 18000 / 0.3048)
        wanted = [f"-250,-{wide},0", "1500,0,0", f"3250,{wide},0"]
        self.assertEqual(text[3:6], [f"at,A7C957,{it},2220000" for it in wanted])
        wanted = [
            "line 4: A7C957: dropped, the altitude is missing",
            "line 3: A7C957: dropped, it repeats the time of line 2",
            "cycle 1 is 1162137600, cycle 4 is 1162137603",
            "the plane touches at 0.000000,0.000000, 37000 ft; all positions are within 0.6 NM and 0 ft of that",
            "A7C957: 3 positions",
        ]
        self.assertEqual(remarks, wanted)

    def test_copies_gaps_and_doubts(self):
        altitudes = {0: 30_000, 1: 30_000, 2: 30_250, 3: 30_000, 15.5: 30_000, 16.5: 30_000}
        rows = [WGS84]
        rows += [f"{time},400A01,47,{9 + time / 1000},{altitude}" for time, altitude in altitudes.items()]
        rows += ["17,400A01,47,9.0165,30000"]
        remarks = answered("--ground 0", rows)[2]
        self.assertIn("line 8: 400A01: dropped, it repeats the place of line 7", remarks)
        self.assertIn("line 6: 400A01: filled, there is nothing for 12.5 s before it", remarks)
        self.assertIn("line 4: 400A01: doubtful, 250 ft above or below that line", remarks)
        # At 47 degrees a degree of latitude is 111.170 km on WGS84, and 1/700 more at 30,000 ft.
        rows[3] = rows[3].replace("47,", "47.01,")
        remarks = answered("--ground 0", rows)[2]
        self.assertIn("line 4: 400A01: doubtful, 3653 ft off the line between its neighbours", remarks)


class Reckoning(unittest.TestCase):
    """Places from courses. Expected values are by hand."""

    # 360 kt are 0.1 NM or 607.6115 ft in a second.
    def test_straight(self):
        rows = [
            COURSE,
            "0,400A01,360,90,,,,30000",
            "2,400A01,360,90,1,1000,50,30002",
            "4,400A01,360,90,,,,30000",
        ]
        status, text, _ = answered("--ground 0", rows)
        places = [it.split(",")[2:] for it in text if it.startswith("at")]
        self.assertEqual(status, 0)
        self.assertEqual([it[1] for it in places], ["-215", "392", "1000", "1608", "2215"])
        self.assertEqual({it[2] for it in places}, {"50"})
        self.assertEqual([it[3] for it in places], ["1800000", "1800060", "1800120", "1800060", "1800000"])

    # A quarter of a circle to the right in 90 s, from track 315 through 0 to 45: its radius is 90*v/(pi/2), and its
    # chord leads north, over sqrt(2) radii.
    def test_quarter_of_a_circle(self):
        rows = [COURSE, "0,400A01,360,315,1,0,0,0", "90,400A01,360,45,,,,0"]
        last = answered("--ground 0", rows)[1][-2].split(",")
        radius = 90 * float(NAUTICAL_MILE) / 10 / (math.pi / 2)
        self.assertEqual(last[2:5], ["90000", "0", str(round(math.sqrt(2) * radius))])


GOOD = "0,400A01,0,0,0"

REFUSED = [
    ("", ["time,address,x_ft,y_ft,altitude", GOOD], "no column has the pressure altitude"),
    ("", ["time,address,x_ft,y_ft,geoaltitude", GOOD], "no column has the pressure altitude"),
    ("", ["time,address,x_ft,y_m,alt_ft", GOOD], "no columns have the place"),
    ("", ["time,address,x_ft,y_ft,x_m,y_m,alt_ft", "0,400A01,0,0,0,0,0"], "places of two kinds or units"),
    ("", ["time,address,icao24,x_ft,y_ft,alt_ft", "0,400A01,400A01,0,0,0"], "more than one column has the address"),
    ("", ["time,address,x_ft,y_ft,alt_ft,alt_ft", "0,400A01,0,0,0,0"], "two columns have the name alt_ft"),
    ("", ["time,address,x_ft,y_ft,alt_ft,alt_m", "0,400A01,0,0,0,0"], "more than one column has the pressure altitude"),
    ("", [FEET], "there is no row below the header"),
    ("", [""], "no column has the time"),
    ("", [FEET, "0,400A01,0,0"], "line 2: it has 4 fields, and the header has 5"),
    ("", [FEET, "0,4E+12,0,0,0"], 'line 2: address is "4E+12"'),
    ("", [FEET, "0,FFFFFF,0,0,0"], 'line 2: address is "FFFFFF"'),
    ("", [FEET, "0,400A01,1/2,0,0"], 'line 2: x_ft is "1/2", which is no number'),
    ("", [FEET, "noon,400A01,0,0,0"], 'line 2: "noon" is no time'),
    ("", [FEET, GOOD, "00:00:01,400A01,0,0,0"], 'line 3: time is "00:00:01", and the times before it have the other'),
    ("", [FEET, "23:59:59,400A01,0,0,0", "00:00:01,400A01,0,0,0"], "400A01: the clock passes midnight"),
    ("", [FEET, "0,400A01,0,0,60001"], "line 2: the altitude is 60001 ft"),
    ("", [WGS84, "0,400A01,91,0,0"], "line 2: lat 91.0, lon 0.0 is no place"),
    ("", [FEET, GOOD, "0.0001,400A01,5,0,0"], "line 3: 400A01 is in another place than in line 2, at the same time"),
    ("", [FEET, "0,400A01,,0,0"], "400A01 has no row that can be taken"),
    ("", [FEET, "0,400A01,1000001,0,0"], "line 2: 400A01 is more than 1000000 ms"),
    ("", [FEET, *(f"0,4000{it},0,0,0" for it in range(10, 27))], "there are 17 aircraft"),
    ("", [FEET, GOOD, "700,400A01,0,0,0"], "all have positions in 701 cycles"),
    ("--cycles 2", [FEET, GOOD, "0.9,400A01,0,0,0"], "400A01 has positions from 0 to 0.9, and the run is from 0 to 1"),
    ("--start 1", [FEET, "1.1,400A01,0,0,0", "2,400A01,0,0,0"], "from 1.1 to 2, and the run is from 1 to 2"),
    ("--start 00:00:00", [FEET, GOOD], '--start is "00:00:00", and the times of the file have the other form'),
    ("--kind 400B02=TA", [FEET, GOOD], "--kind: 400B02 isn't among the aircraft 400A01"),
    ("--only 400B02", [FEET, GOOD], "400B02 has no row that can be taken"),
    ("", [COURSE, "0,400A01,400,90,,,,0", "1,400A01,400,90,,,,0"], "400A01 has 0 rows with an anchor"),
    ("", [COURSE, "0,400A01,400,90,1,0,0,0", "1,400A01,400,90,1,0,0,0"], "400A01 has 2 rows with an anchor"),
    ("", ["time,address,gs_kt,track_deg,anchor,alt_ft", "0,400A01,400,90,1,0"], "the place of an anchor needs the"),
    ("", [FEET, '0,400A01,"0,0,0'], "unexpected end of data"),
]


class Refusals(unittest.TestCase):
    """What is refused: status 3, no text, and the sentence in the last line."""

    def test_rows(self):
        for words, rows, sentence in REFUSED:
            with self.subTest(sentence):
                status, text, remarks = answered(f"--ground 0 {words}", rows)
                self.assertEqual((status, text), (3, []))
                self.assertRegex(remarks[-1], "^refused: ")
                self.assertIn(sentence, remarks[-1])

    def test_words(self):
        for words in "", "--ground 15001", "--ground 0 --cycles 601", "--ground 0 --kind 400A01", "--ground 0 --cyc 5":
            with self.subTest(words), contextlib.redirect_stderr(io.StringIO()), self.assertRaises(SystemExit) as ended:
                answered(words, [FEET, GOOD])
            self.assertEqual(ended.exception.code, 2)


if __name__ == "__main__":
    unittest.main()
