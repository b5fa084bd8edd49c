//! How the report looks: on a screen, light and dark, and on paper.

pub const STYLE: &str = "\
:root { color-scheme: light dark; --ink: #222; --quiet: #555; --paper: #fff; --line: #ccc; --soft: #f3f5f2; --good: #1b5e20; --bad: #b71c1c; --link: #0b57a4 }
@media screen and (prefers-color-scheme: dark) {
  :root { --ink: #e3e3e0; --quiet: #b0b3ad; --paper: #181a17; --line: #454a42; --soft: #232622; --good: #81c784; --bad: #ff8a80; --link: #8ab4f8 }
}
body { margin: 0 auto; max-width: 90rem; padding: 1rem 1.5rem; font: 1rem/1.45 sans-serif; color: var(--ink); background: var(--paper) }
a { color: var(--link) }
:focus-visible { outline: 3px solid var(--link); outline-offset: 2px }
h1 { font-size: 1.5rem } h2 { font-size: 1.35rem; margin: 0 } h3 { font-size: 1.05rem; margin: 1.5rem 0 .5rem }
section { margin-top: 2rem; padding-top: 1.5rem; border-top: 2px solid var(--line) }
main > section:first-child:last-child { border: 0; margin: 0; padding: 0 }
table { border-collapse: collapse; font-variant-numeric: tabular-nums }
caption { text-align: left; font-weight: bold; padding: .4rem 0 }
th, td { text-align: left; vertical-align: top; padding: .2rem 1rem .2rem 0; border-bottom: 1px solid var(--line) }
tbody th { font-weight: normal; white-space: nowrap }
pre { padding: .75rem 1rem; background: var(--soft); white-space: pre-wrap; overflow-wrap: anywhere; font-size: .9rem }
.wide { overflow-x: auto } .good { color: var(--good) } .bad { color: var(--bad) } .note { color: var(--quiet) }
@media screen and (prefers-color-scheme: dark) {
  svg text { fill: #e3e3e0 } svg .quiet { fill: #b0b3ad } svg .paper, svg .even { fill: #181a17 } svg .odd { fill: #232622 }
  svg .before { fill: #34332f } svg .span { fill: #33452c } svg .grid { stroke: #454a42 } svg .need { fill: #7fb0e0 } svg .set { fill: #81c784; stroke: #181a17 }
  svg .clear { fill: #181a17; stroke: #ff8a80 }
}
@media print {
  :root { --ink: #000; --quiet: #444; --paper: #fff; --line: #bbb; --soft: #fff; --good: #000; --bad: #000; --link: #000 }
  body { max-width: none; padding: 0; font-size: 10pt } section { break-before: page; border: 0; margin: 0; padding: 0 }
  main > section:first-child:last-child { break-before: auto }
  .wide { overflow: visible } svg { max-width: 100%; height: auto } .back { display: none } tr, svg { break-inside: avoid }
  thead { display: table-header-group }
}
";
