"""How a page looks, on a screen and on paper."""
import re

STYLE = """
:root { color-scheme: light; }
body { font: 1rem/1.5 "DejaVu Sans", Verdana, Helvetica, sans-serif; color: #111; background: #fff; margin: 0 auto; padding: 1rem;
  max-width: 62rem; }
h1 { font-size: 1.6rem; line-height: 1.25; }
h2 { font-size: 1.25rem; margin-top: 2.5rem; border-bottom: 1px solid #999; }
h3 { font-size: 1.05rem; }
p, li, dd { max-width: 44rem; }
.answer { font-size: 1.15rem; border-left: .4rem solid #2e6b34; padding: .3rem .8rem; }
.answer.refused { border-color: #a3324b; }
.wide { overflow-x: auto; margin: 1rem 0; }
table { border-collapse: separate; border-spacing: 0; font-size: .9rem; }
caption { text-align: left; font-weight: bold; padding: .3rem 0; }
caption span { display: inline-block; max-width: calc(100vw - 2.5rem); }
th, td { border: solid #999; border-width: 0 1px 1px 0; padding: .25rem .5rem; text-align: left; vertical-align: top; }
thead th { border-top-width: 1px; }
tr > :first-child { border-left-width: 1px; }
thead th { background: #eef1f4; vertical-align: bottom; }
tbody th { background: #fff; background-clip: padding-box; position: sticky; left: 0; }
th { max-width: 20rem; overflow-wrap: anywhere; }
th code { white-space: nowrap; }
thead th { overflow-wrap: break-word; }
tr > th:first-child { min-width: 8rem; }
h1, .answer, p, td, figcaption { overflow-wrap: break-word; }
tr.rejected > th { background: #cfe3cf; }
.decimal { color: #444; white-space: nowrap; }
.whole { white-space: nowrap; }
code, pre { font-family: "DejaVu Sans Mono", Menlo, Consolas, monospace; font-size: .85rem; }
pre { background: #f4f6f8; border: 1px solid #ccc; padding: .6rem; white-space: pre-wrap; overflow-wrap: anywhere; }
td pre { margin: 0; }
code { overflow-wrap: anywhere; white-space: pre-line; }
.pictures { display: grid; grid-template-columns: repeat(auto-fit, minmax(min(100%, 24rem), 1fr)); gap: 1rem; padding: 0;
  list-style: none; }
.pictures.large { grid-template-columns: 1fr; }
.pictures li { max-width: none; }
figure { margin: 0; border: 1px solid #ccc; padding: .5rem; }
figure svg { max-width: 100%; height: auto; display: block; margin: 0 auto; }
figcaption { font-weight: bold; }
summary { cursor: pointer; font-weight: bold; margin: 1rem 0; }
dt { font-weight: bold; }
dd { margin: 0 0 .6rem 0; }
.facts { display: grid; grid-template-columns: max-content minmax(0, 1fr); gap: .2rem 1rem; margin: 1rem 0; }
.facts dd { margin: 0; overflow-wrap: anywhere; max-width: none; }
.blank { display: inline-block; width: min(100%, 24rem); border-bottom: 1px solid #111; height: 1.2em; }
nav ol { columns: 2; margin-top: .3rem; }
nav a { color: inherit; }
footer { border-top: 1px solid #999; margin-top: 2.5rem; font-size: .9rem; }
@media print {
  body { font-size: 9.5pt; max-width: none; padding: 0; }
  .wide { overflow: visible; }
  tbody th { position: static; }
  table { font-size: 8pt; max-width: 100%; }
  th, tr > th:first-child { min-width: 0; }
  th, td { padding: .15rem .3rem; overflow-wrap: anywhere; }
  thead th { overflow-wrap: break-word; }
  tbody th { min-width: 5em; }
  pre.long { columns: 3; }
  .decimal { white-space: normal; }
  thead { display: table-header-group; }
  tr, figure, .answer, .facts { break-inside: avoid; }
  h1, h2, h3, caption { break-after: avoid; }
  .pictures { grid-template-columns: 1fr 1fr; }
  .pictures.large { grid-template-columns: 1fr; }
  figure svg { max-height: 100mm; }
  .between { display: none; }
  pre { background: #fff; }
}
"""


def _css_text(text: str) -> str:
    """Returns a text as a style sheet has it in quotes. No character of it can end the quotes or the style sheet."""
    return '"' + re.sub(r"[^A-Za-z0-9 .,;:()/_-]", lambda found: f"\\{ord(found[0]):x} ", text) + '"'


def style_of(title: str, case: str) -> str:
    """Returns the style sheet of a page. On paper each sheet has the title, which case it is, and its number."""
    shown = title if len(title) <= 120 else title[:119] + "…"
    return STYLE + f"""@page {{
  margin: 20mm 15mm;
  @top-left {{ content: {_css_text(shown)}; font: 8pt "DejaVu Sans", Verdana, sans-serif; width: 100%; }}
  @bottom-left {{ content: {_css_text(case)}; font: 7pt "DejaVu Sans Mono", monospace; width: 85%; }}
  @bottom-right {{ content: "sheet " counter(page) " of " counter(pages); font: 8pt "DejaVu Sans", Verdana, sans-serif; width: 15%; }}
}}
"""
