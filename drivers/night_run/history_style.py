"""How the page of a history looks, besides what it shares with that of a report. `--nights` is how
many bars a chart has: a bar is 28 wide at most, so the median and the dates end where the bars do.
"""

STYLE = """
.past .said { color: var(--soft); font-size: 14px; }
.chart { display: flex; gap: 2px; align-items: flex-end; height: 56px; margin: 6px 0 2px;
  max-width: calc(30px * var(--nights)); position: relative; }
.chart .night { flex: 1 1 0; min-width: 0; max-width: 28px; height: 100%; display: flex;
  flex-direction: column; justify-content: flex-end; background: var(--track);
  border-radius: 2px; padding-top: 7px; }
.chart .night span { display: block; min-height: 5px; border-radius: 2px; }
.chart .failed-night { background: var(--lost); box-shadow: inset 0 5px 0 var(--failed); }
.chart .again-night { box-shadow: inset 0 5px 0 var(--canceled); }
.chart .none-night { background: none; border-bottom: 1px dashed var(--line); }
.chart .usual { position: absolute; left: 0; right: 0; height: 0; pointer-events: none;
  border-top: 1px dashed var(--ink); opacity: .55; }
.plain { background: var(--running); }
.legend .again { background: linear-gradient(var(--canceled) 0 3px, var(--track) 3px 5px,
  var(--ok) 5px); }
.legend .median { height: 0; border-top: 1px dashed var(--ink); vertical-align: 4px; }
.ends { display: flex; justify-content: space-between; font-size: 12px; color: var(--soft);
  max-width: max(160px, 30px * var(--nights)); }
.sums { display: grid; grid-template-columns: repeat(auto-fit, minmax(300px, 1fr)); gap: 4px 24px; }
.listed { font-size: 14px; margin: 8px 0 0; padding: 0 0 0 18px; }
:root { --lost: #f9dcdc; }
@media (prefers-color-scheme: dark) { :root { --lost: #43262a; } }
@media (max-width: 700px) { .chart { gap: 1px; } .sums { grid-template-columns: 1fr; } }
"""
