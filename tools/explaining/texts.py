"""Small pieces of text that the explanations share: counts, lists of lines, values."""
import ags

FEW = 3


def count(number, noun):
    """`18,004 findings`, `1 finding`."""
    if number == 1:
        return f"1 {noun}"
    plural = {"entry": "entries", "is": "are", "has": "have"}.get(noun, noun + ("es" if noun.endswith("s") else "s"))
    return f"{number:,} {plural}"


def a(name):
    """A name with its article, as it is spoken letter by letter or as a word."""
    return f"{'an' if name[:1] in 'AEIO' else 'a'} {name}"


def listing(texts, few=FEW, end="and"):
    """`a, b and c`, or the first few and how many more."""
    texts = list(texts)
    if len(texts) > few + 1:
        texts = texts[:few] + [f"{len(texts) - few:,} more"]
    if len(texts) < 2:
        return "".join(texts) or "none"
    return f" {end} ".join((", ".join(texts[:-1]), texts[-1]))


def lines(numbers, few=FEW):
    """`line 5`, `lines 5, 6 and 7`, `lines 5, 6, 7 and 18,001 more`."""
    numbers = sorted(set(numbers))
    return ("line " if len(numbers) == 1 else "lines ") + listing([str(number) for number in numbers], few)


def value(text):
    """A value as a field spells it."""
    text = ags.shown(text if len(text) <= 60 else text[:57] + b"...")
    return f'"{text}"'


def names(given, few=8):
    return listing([ags.shown(name) for name in given], few)


def pairs(headings, entries):
    """`LOCA_ID=BH1, SAMP_TOP=1.50`, a null as `""`."""
    return ", ".join(f'{ags.shown(heading)}={ags.shown(entry) or chr(34) * 2}' for heading,
                     entry in zip(headings, entries))


def row(descriptor, items):
    """A row as a file spells it."""
    return ",".join('"%s"' % ags.shown(item).replace('"', '""') for item in (descriptor, *items))


def clipped(text, width=100):
    return text if len(text) <= width else text[:width - 3] + "..."
