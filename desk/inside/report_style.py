"""The style of a report's page: light or dark as the system is, for a phone, a screen and a printer."""
from . import report_colours
from .report_colours import COLOURS, PAPER


def colours(which: int) -> str:
    paper = list(PAPER.values())[which]
    names = "".join(f"--{name}:{COLOURS[name][which]};" for name in ("ink", "muted", "grid", "link", "bad", "charge"))
    return f":root{{{names}--paper:{paper};--raised:{('#f5f7f9', '#181f27')[which]};--chosen:{('#fff3c4', '#4a3d00')[which]}}}"


PAGE = """
*{box-sizing:border-box}
html{scroll-behavior:smooth;-webkit-text-size-adjust:100%}
@media (prefers-reduced-motion:reduce){html{scroll-behavior:auto}}
body{margin:0 auto;max-width:1120px;padding:16px;background:var(--paper);color:var(--ink);overflow-wrap:break-word;
font:16px/1.5 system-ui,-apple-system,'Segoe UI',Roboto,'DejaVu Sans',sans-serif}
h1{font-size:1.5rem;line-height:1.25;margin:.2em 0}h2{font-size:1.15rem;margin:1.6em 0 .5em}
a{color:var(--link)}p{margin:.5em 0}.quiet,footer{color:var(--muted)}
:focus-visible{outline:3px solid var(--link);outline-offset:2px;border-radius:3px}
.skip{position:absolute;left:-999px}.skip:focus{position:static}
.cards{display:flex;flex-wrap:wrap;gap:12px;list-style:none;padding:0;margin:1em 0}
.card{flex:1 1 300px;background:var(--raised);border:1px solid var(--grid);border-radius:10px;padding:12px 16px;min-width:0;max-width:100%}
.card h2,.card h3{margin:0 0 .3em;font-size:1.05rem;white-space:pre-wrap}
dl{display:grid;grid-template-columns:auto 1fr;gap:2px 14px;margin:0}dt{color:var(--muted)}dd{margin:0;min-width:0;font-variant-numeric:tabular-nums}
@media (min-width:860px){.one dl{grid-template-columns:auto 1fr auto 1fr}}figure{margin:1em 0}svg{display:block;width:100%;height:auto}svg.n{display:none}
.moment{position:sticky;bottom:0;z-index:1;background:var(--raised);border:1px solid var(--grid);border-radius:10px;padding:8px 16px;margin:8px 0}
.moment label{display:block;font-weight:600}.moment input{width:100%;margin:6px 0;accent-color:var(--charge);min-height:24px}
.values{display:flex;flex-wrap:wrap;gap:2px 18px;min-height:3em;font-variant-numeric:tabular-nums}.values b{font-weight:600}
.filter{display:flex;flex-wrap:wrap;gap:8px 18px;align-items:center;margin:.6em 0}
select,button{font:inherit;color:inherit;background:var(--paper);border:1px solid var(--muted);border-radius:6px;padding:4px 8px;min-height:32px}
input[type=checkbox]{width:20px;height:20px;vertical-align:-4px}
table{border-collapse:collapse;width:100%;font-size:.9rem;font-variant-numeric:tabular-nums}
th,td{padding:4px 8px;text-align:right;vertical-align:top;border-bottom:1px solid var(--grid)}th{overflow-wrap:normal}td{white-space:nowrap}
thead th{position:sticky;top:0;background:var(--paper);color:var(--muted);font-weight:600}
caption{text-align:left}td:nth-of-type(2),thead th:nth-child(3){text-align:left}thead th:nth-child(3){width:50%}tbody th{font-weight:600}
td:nth-of-type(2){white-space:pre-wrap;overflow-wrap:anywhere;min-width:14em}
td i{display:block;font-style:normal;color:var(--muted)}tr.no i{color:var(--bad)}td a{display:inline-block;margin-right:8px}
tr:target,tr.here{background:var(--chosen)}
svg a:focus{outline:none}svg a:focus .hit,svg a:target .hit{stroke:var(--link);stroke-width:2.5}
.wide-only{overflow:visible}
@media (max-width:700px){
body{padding:10px}svg.m{display:none}svg.n{display:block}
table,thead,tbody,caption{display:block}thead{position:absolute;left:-9999px}
tr{display:flex;flex-wrap:wrap;gap:0 14px;padding:6px 4px;border-bottom:1px solid var(--grid)}tr[hidden]{display:none}
th,td{border:0;padding:1px 0;text-align:left}td:nth-of-type(2){flex:1 1 100%;min-width:0}td:empty{display:none}
tbody th::before{content:"record ";color:var(--muted);font-weight:400}td:nth-of-type(1)::after{content:" h";color:var(--muted)}
.by-number td:nth-of-type(1)::after{content:""}
td:nth-of-type(n+3)::before{color:var(--muted)}
td:nth-of-type(3)::before{content:"charge "}td:nth-of-type(4)::before{content:"active % "}td:nth-of-type(5)::before{content:"standby % "}
td:nth-of-type(6)::before{content:"V "}td:nth-of-type(7)::before{content:"current "}td:nth-of-type(8)::before{content:"°C "}
.moment{padding:4px 10px;font-size:.8rem}.moment input{margin:2px 0}.values{gap:0 12px;line-height:1.35}
}
@media print{
svg .cursor{display:none}body{max-width:none;padding:0;font-size:10pt}.moment,.filter,.skip{display:none}svg.m{display:block}svg.n{display:none}
h2{break-after:avoid}.main svg.m{max-height:13.5cm;width:auto;max-width:100%}.one dl{grid-template-columns:auto 1fr auto 1fr}figure,.card,tr{break-inside:avoid}
thead{display:table-header-group}thead th{position:static}a{color:inherit;text-decoration:none}tr.here,tr:target{background:none}
table{font-size:8pt}
}
#values:empty{min-height:0}.index{display:grid;grid-template-columns:repeat(auto-fill,minmax(min(300px,100%),1fr));gap:14px;list-style:none;padding:0}
.index a{text-decoration:none;color:inherit;display:block}.index a:hover h3{text-decoration:underline}
"""


def style() -> str:
    """All of it: the page's, and the picture's."""
    dark = f"@media screen and (prefers-color-scheme:dark){{{colours(1)}}}"
    return "".join(line.strip() for line in PAGE.splitlines()).join([colours(0) + dark + ":root{color-scheme:light dark}", ""]) + report_colours.style()
