"""Units and types: other spellings of the same one, and what the common ones mean.

    is_same(b"KPA", b"kPa")                       # True: the same unit in other capitals
    is_same(b"mg/kg", b"Mg/m3")                   # False: another quantity
    other_spelling(b"KPA", [b"m", b"kPa"])        # b"kPa"
    meaning_of_unit(b"kPa")                       # b"Kilopascals", or None"""
import re

# What follows a prefix: with `m` for milli and `M` for mega, or before `s` second and `S` siemens, capitals say which
# quantity is meant.
PREFIXED = ("g", "pa", "n", "l", "v", "a", "s", "w", "j", "bar", "ol", "hz", "eq")
# A letter alone that is one unit in capitals and another one without, as `S` siemens and `s` seconds.
ALONE = tuple("acdfghknst")
UNITS = {
    "%": "Percentage", "%vol": "Percentage by volume", "%v/v": "Percentage by volume", "deg": "Degrees",
    "degC": "Degrees Celsius", "DegC": "Degrees Celsius", "m": "Metres", "mm": "Millimetres", "cm": "Centimetres",
    "km": "Kilometres", "um": "Micrometres", "m2": "Square metres", "cm2": "Square centimetres",
    "mm2": "Square millimetres", "m3": "Cubic metres", "cm3": "Cubic centimetres", "l": "Litres", "ml": "Millilitres",
    "g": "Grams", "kg": "Kilograms", "mg": "Milligrams", "N": "Newtons", "kN": "Kilonewtons", "MN": "Meganewtons",
    "Pa": "Pascals", "kPa": "Kilopascals", "MPa": "Megapascals", "GPa": "Gigapascals", "kN/m2":
    "Kilonewtons per square metre", "kN/m3": "Kilonewtons per cubic metre", "MN/m2": "Meganewtons per square metre",
    "Mg/m3": "Megagrams per cubic metre", "kg/m3": "Kilograms per cubic metre", "g/cm3": "Grams per cubic centimetre",
    "mg/kg": "Milligrams per kilogram", "ug/kg": "Micrograms per kilogram", "g/kg": "Grams per kilogram",
    "mg/l": "Milligrams per litre", "ug/l": "Micrograms per litre", "ng/l": "Nanograms per litre",
    "g/l": "Grams per litre", "ug/m3": "Micrograms per cubic metre", "mg/m3": "Milligrams per cubic metre",
    "ppm": "Parts per million", "ppb": "Parts per billion", "s": "Seconds", "min": "Minutes", "hr": "Hours",
    "day": "Days", "m/s": "Metres per second", "mm/s": "Millimetres per second", "mm/min": "Millimetres per minute",
    "m2/s": "Square metres per second", "m2/yr": "Square metres per year", "m2/MN": "Square metres per meganewton",
    "m3/s": "Cubic metres per second", "m3/hr": "Cubic metres per hour", "l/s": "Litres per second",
    "l/min": "Litres per minute", "l/hr": "Litres per hour", "mbar": "Millibars", "bar": "Bars", "V": "Volts",
    "mV": "Millivolts", "A": "Amperes", "mA": "Milliamperes", "ohm": "Ohms", "ohm m": "Ohm metres",
    "uS/cm": "Microsiemens per centimetre", "mS/cm": "Millisiemens per centimetre", "mS/m": "Millisiemens per metre",
    "pH units": "pH units", "pH": "pH units", "W/mK": "Watts per metre kelvin", "Hz": "Hertz", "kHz": "Kilohertz",
    "mbgl": "Metres below ground level", "mAOD": "Metres above ordnance datum", "mOD": "Metres above ordnance datum",
    "yyyy": "Year", "yyyy-mm": "Year and month", "yyyy-mm-dd": "Year, month and day",
    "yyyy-mm-ddThh:mm": "Year, month, day, hours and minutes",
    "yyyy-mm-ddThh:mm:ss": "Year, month, day, hours, minutes and seconds", "hh:mm": "Hours and minutes",
    "hh:mm:ss": "Hours, minutes and seconds"}
TYPES = {
    "ID": "Unique identifier", "PA": "Text listed in the group ABBR", "PT": "Text listed in the group TYPE",
    "PU": "Text listed in the group UNIT", "X": "Text", "XN": "Text or number", "U": "Value of variable format",
    "T": "Elapsed time", "DT": "Date and time", "MC": "Moisture content", "DMS": "Degrees, minutes and seconds",
    "YN": "Yes or no", "RL": "Record link"}
FORMS = {"DP": "Value with {} decimal places", "SF": "Value with {} significant figures",
         "SCI": "Value in scientific notation with {} decimal places"}


def folded(unit):
    """A unit without what spelling alone changes: spaces, `^`, and capitals where they say no other quantity."""
    is_of_capitals = unit.isupper() and len(re.findall(rb"[A-Z]", unit)) > 1

    def word(found):
        text = found[0]
        low = text.lower()
        if low in ALONE and not is_of_capitals:
            return text
        if low in ("mm", "min", "mbgl", "mbar", "maod", "mod") or low[1:] not in PREFIXED:
            return low if low not in ("nm",) else text
        return text[0] + low[1:] if low[0] in "m" else low
    text = re.sub(r"[ ^_]", "", unit.decode("latin-1"))
    text = re.sub(r"[A-Za-z]+", word, text)
    return re.sub(r"^degrees?c?$", lambda found: "degc" if found[0].endswith("c") else "deg", text)


def is_same(unit, other):
    """Whether two texts are spellings of one unit, as far as capitals and spaces can say."""
    if re.search(rb"(?i)[mun]s\b", unit) and unit != other:
        return unit.replace(b" ", b"") == other.replace(b" ", b"")
    return folded(unit) == folded(other)


def other_spelling(unit, names):
    """Another spelling of the same unit among these names, or None where none or several are."""
    found = [name for name in dict.fromkeys(names) if name and name != unit and is_same(unit, name)]
    return found[0] if len(found) == 1 else None


def other_type(kind, names):
    """A type of the same name in other capitals or without spaces, or None."""
    found = [name for name in dict.fromkeys(names) if name and name != kind and name.upper() == kind.strip().upper()]
    return found[0] if len(found) == 1 else None


def meaning_of_unit(unit):
    text = UNITS.get(unit.decode("latin-1"))
    return text.encode() if text else None


def meaning_of_type(kind):
    """What a type of AGS4 means, or None for a text that is none."""
    text = kind.decode("latin-1")
    form = re.fullmatch(r"([0-9])(DP|SF|SCI)", text)
    said = FORMS[form[2]].format(form[1]) if form else TYPES.get(text)
    return said.encode() if said else None
