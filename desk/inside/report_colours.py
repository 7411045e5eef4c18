"""The colours of a report, for light and for dark paper: those of Okabe and Ito, which the colour blind tell apart, darker or lighter where the paper
asks for it. No colour says anything alone: lines have dashes and names, marks have shapes and words."""

PAPER = {"light": "#ffffff", "dark": "#10151b"}
COLOURS = {  # name: on light paper, on dark paper
    "ink": ("#1b1f24", "#e8ebef"),
    "muted": ("#57606a", "#a3adb9"),
    "grid": ("#dde2e7", "#2c343d"),
    "charge": ("#0072b2", "#56b4e9"),
    "FULL": ("#004d30", "#c0f0a8"),
    "AE": ("#c04a00", "#ff9a52"),
    "SE": ("#8e4a78", "#e6a3cb"),
    "voltage": ("#007a59", "#2fcf9f"),
    "current": ("#a35200", "#f2b63d"),
    "temperature": ("#8e4a78", "#e6a3cb"),
    "link": ("#0059a6", "#7cc4ff"),
    "bad": ("#b3001b", "#ff8080"),
}
LINES = {"charge": "charge", "FULL": "FULL", "AE": "AE", "SE": "SE", "active": "AE", "standby": "SE", "voltage": "voltage", "current": "current",
         "temperature": "temperature"}
MARKS = {"full": "FULL", "empty": "AE", "learn": "SE", "save": "charge", "power-on": "ink", "copy": "muted", "lock": "ink", "label": "muted", "refused": "bad"}
STRETCHES = ("charge", "AE", "FULL", "SE", "current", "muted")
DASHES = {"FULL": "10 4", "AE": "6 3", "SE": "2 3", "standby": "5 4", "limit": "3 4"}


def rules(which: int) -> str:
    """The colours of the picture as a style sheet."""
    paper = list(PAPER.values())[which]
    rows = [f"svg text{{fill:{COLOURS['ink'][which]}}}svg .paper{{fill:{paper}}}svg .quiet{{fill:{COLOURS['muted'][which]}}}",
            f"svg .halo,svg .core{{stroke:{paper}}}svg .grid{{stroke:{COLOURS['grid'][which]}}}",
            f"svg .axis,svg .cursor,svg .limit{{stroke:{COLOURS['muted'][which]}}}"]
    rows += [f"svg .{name}{{stroke:{COLOURS[colour][which]}}}svg text.{name}{{fill:{COLOURS[colour][which]};stroke:none}}" for name, colour in LINES.items()]
    rows += [f"svg .m-{name}{{stroke:{COLOURS[colour][which]};fill:{COLOURS[colour][which]}}}" for name, colour in MARKS.items()]
    rows += [f"svg .s{at}{{stroke:{COLOURS[name][which]}}}svg text.s{at}{{fill:{COLOURS[name][which]};stroke:none}}" for at, name in enumerate(STRETCHES)]
    rows += [f"svg .area{{fill:{COLOURS['current'][which]}}}svg .dot-voltage{{fill:{COLOURS['voltage'][which]}}}",
             f"svg .dot-temperature{{fill:{COLOURS['temperature'][which]}}}"]
    return "".join(rows)


SHAPES = (
    "svg{font:13px system-ui,-apple-system,'Segoe UI',Roboto,'DejaVu Sans',sans-serif}"
    "svg .l{fill:none;stroke-width:2;stroke-linejoin:round}svg .thin{stroke-width:1.5}svg .tube{stroke-width:7}svg .core{stroke-width:4;stroke-dasharray:none}"
    "svg text{stroke:none}svg .title{font-size:17px;font-weight:600}svg .halo{stroke-width:4;stroke-linejoin:round}"
    "svg .grid,svg .axis{stroke-width:1;fill:none}"
    "svg .name{font-weight:600}svg .small{font-size:12px}svg .area{stroke:none;fill-opacity:.25}svg .guide{stroke-width:1;stroke-opacity:.55;fill:none}"
    "svg .open{fill:none;stroke-width:1.8}svg .hit{fill:transparent;stroke:none}svg .cursor{stroke-width:1.5}"
    + "".join(f"svg .{name}.l{{stroke-dasharray:{dash}}}" for name, dash in DASHES.items()))


def style(dark: bool = True) -> str:
    """The style of a picture: by the system light or dark, or light alone."""
    return SHAPES + rules(0) + (f"@media screen and (prefers-color-scheme:dark){{{rules(1)}}}" if dark else "")
