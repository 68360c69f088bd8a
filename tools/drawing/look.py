"""The tones of a picture, in light and in dark: one for each driver, in a shade for each generation, and those of the rest."""
import re
from html import escape

LIGHT = ["#a85c00", "#006d77", "#7b1fa2", "#2e7d32", "#ad1457", "#3949ab", "#5d4037", "#59616b"]
DARK = ["#ffb454", "#5fd3dd", "#d79bf0", "#84d68a", "#ff8fb8", "#a8b5ff", "#d2b3a6", "#aab4c0"]
SHADES = "abcdef"  # of generations, from the oldest to the newest
STRONG = (0.0, 0.11, 0.22, 0.33, 0.44, 0.55)  # how much of the paper's opposite is in a shade
PALE = (0.14, 0.21, 0.28, 0.34, 0.40, 0.46)  # how much of the tone is in a band's shade
TONES = len(LIGHT)


def mixed(one, other, part):
    """Mixes a part of one colour into another."""
    pairs = [(int(one[it : it + 2], 16), int(other[it : it + 2], 16)) for it in (1, 3, 5)]
    return "#" + "".join(f"{round(mine * (1 - part) + theirs * part):02x}" for mine, theirs in pairs)


def tones(colours, paper, ink):
    """Returns the looks of each driver's generations: filled, drawn, and the band of a holder that takes it to be alive."""
    rows = []
    for place, colour in enumerate(colours):
        for shade, strong, pale in zip(SHADES, STRONG, PALE):
            shown = mixed(colour, ink, strong)
            rows += [f".f{place}{shade}{{fill:{shown}}}", f".s{place}{shade}{{stroke:{shown}}}"]
            rows.append(f".p{place}{shade}{{fill:{mixed(paper, colour, pale)}}}")
    return "".join(rows)


def grounds(paper, ink, faint, rule, none, bad, plain, vain):
    """Returns the CSS rules of all that isn't of one generation: the paper, texts, frames, arrows, in the colours given."""
    return (
        f".paper{{fill:{paper}}}.on{{fill:{paper}}}.cut{{stroke:{paper}}}.ink{{fill:{ink}}}.faint{{fill:{faint}}}"
        f".rule{{stroke:{rule}}}.lane{{stroke:{faint}}}.none{{fill:{none}}}.bad,.fbad{{fill:{bad}}}.bar,.hatch,.break{{stroke:{bad}}}"
        f".plain{{stroke:{plain}}}.fplain{{fill:{plain}}}.vain{{stroke:{vain}}}.fvain{{fill:{vain}}}"
    )


def shade(place, generation, generations):
    """Returns the name of a driver's tone, by its place among the drivers, in the shade of a generation among all of its own in the
    picture.

    The newer the generation, the stronger the shade. Without a place: the last tone.
    """
    known = sorted(generations)
    rank = known.index(generation) if generation in known else 0
    strongest = min(len(SHADES) - 1, 3 * (len(known) - 1))
    strength = round(rank * strongest / max(1, len(known) - 1))
    return f"{TONES - 1 if place is None else place % (TONES - 1)}{SHADES[strength]}"


def with_tooltip(part, words):
    """Returns a part, such as `<path .../>`, with the words that a browser shows where the pointer rests on it."""
    name = part[1:].partition(" ")[0]
    return f"{part[:-2]}><title>{escape(words)}</title></{name}>" if words else part


def style_of(parts):
    """Returns the style of a picture with these parts: of the tones, those that it has."""
    looks = {word for it in parts for found in re.findall(r'class="([^"]*)"', it) for word in found.split()}
    rules = STYLE.split("}")
    return "}".join(it for it in rules if not (tone := re.search(r"\.([fsp]\d[a-f])\{", it)) or tone[1] in looks)


STYLE = (
    "text{font-family:'DejaVu Sans',Verdana,sans-serif}.mono{font-family:'DejaVu Sans Mono',Menlo,Consolas,monospace}"
    ".strong{font-weight:bold}path{fill:none}.stroke{stroke-width:1.8}.rule{stroke-width:.6}.lane{stroke-width:1}"
    ".cut{stroke-width:2}.round{stroke-width:6}.trail{stroke-width:1}.bar{stroke-width:3}.break{stroke-width:2;stroke-dasharray:6 3}.cross{stroke-width:3}"
    ".chip{stroke-width:1.3}.old{stroke-width:.5}.dashed{stroke-dasharray:5 3}.hatched{fill:url(#hatch)}"
    ".hatch{stroke-width:2.4;stroke-opacity:.3}"
    + grounds("#ffffff", "#1f2328", "#59636e", "#d8dee4", "#f3f4f6", "#b00020", "#1a5fb4", "#8a929b")
    + tones(LIGHT, "#ffffff", "#000000")
    + "@media (prefers-color-scheme:dark){"
    + grounds("#0d1117", "#e6edf3", "#9aa4af", "#262c34", "#1a1f26", "#ff7b72", "#79b8ff", "#7d8590")
    + tones(DARK, "#0d1117", "#ffffff")
    + "}"
)
