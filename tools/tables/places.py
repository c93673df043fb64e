"""The rows of LOCA as places on a map, by LOCA_LAT and LOCA_LON: GeoJSON (RFC 7946), in degrees of WGS 84.

    geojson(data)"""
import json
import re
from decimal import Decimal

import ags

from .layout import Refused, encoding_of, read

DEGREES = re.compile(rb"([+-]?)([0-9]{1,3})(?:\.([0-9]+)|:([0-5][0-9]):([0-5][0-9](?:\.[0-9]+)?))?")
# Some 0.1 mm on the ground.
PLACES = Decimal("0.000000001")


def geojson(data):
    """A feature for each row of LOCA, with its entries. A row without both degrees has no geometry."""
    file = read(data)
    group = file.by_name.get(b"LOCA")
    lacks = [heading for heading in (b"LOCA_LAT", b"LOCA_LON") if group is None or heading not in group.columns]
    if lacks:
        raise Refused(f"no places: it has no {' and no '.join(map(ags.shown, lacks))} in LOCA")
    reasons, features, encoding = [], [], encoding_of(data)
    for row in group.data:
        degrees = [degrees_of(group, row, *each, reasons) for each in ((b"LOCA_LON", 180), (b"LOCA_LAT", 90))]
        place = None if None in degrees else {"type": "Point", "coordinates": degrees}
        entries = dict(zip(*([text.decode(encoding) for text in texts] for texts in (group.headings, row.items))))
        features.append({"type": "Feature", "geometry": place, "properties": entries})
    if reasons:
        raise Refused(*reasons)
    return (json.dumps({"type": "FeatureCollection", "features": features}, indent=1) + "\n").encode("utf-8")


def degrees_of(group, row, heading, most, reasons):
    """An entry in degrees, minutes and seconds, or in degrees, as degrees; None for null."""
    entry = group.entry(row, heading)
    if not entry:
        return None
    match = DEGREES.fullmatch(entry)
    degrees = value_of(match) if match else None
    if degrees is None or abs(degrees) > most:
        reasons.append(f"line {row.line}: \"{ags.shown(entry)}\" under {ags.shown(heading)} is not in degrees up to "
                       f"{most}, as 51:28:40.12 or 51.4778111")
        return None
    return float(degrees.quantize(PLACES))


def value_of(match):
    sign, whole, decimals, minutes, seconds = (part.decode("ascii") if part else "" for part in match.groups())
    degrees = Decimal(f"{whole}.{decimals or 0}") + Decimal(minutes or 0) / 60 + Decimal(seconds or 0) / 3600
    return -degrees if sign == "-" else degrees
