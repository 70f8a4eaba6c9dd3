"""How the page of a report looks: inline, so that it asks for nothing from elsewhere."""

# A colour for each phase; text on it is white in the light, and black in the dark.
STYLE = """
:root { color-scheme: light dark;
  --paper: #f6f7f9; --card: #ffffff; --ink: #1c2430; --soft: #5b6675; --line: #dde2e8;
  --on: #ffffff; --ok: #2b7a4b; --failed: #c0282d; --canceled: #a65a00; --not-started: #7b5e96;
  --interrupted: #56606e; --running: #1f66b5; --waiting: #76828f; --track: #eef1f4; }
@media (prefers-color-scheme: dark) { :root {
  --paper: #12161c; --card: #1b212a; --ink: #e6eaf0; --soft: #9aa6b5; --line: #303947;
  --on: #0c1016; --ok: #5cc283; --failed: #ff7b76; --canceled: #eba04b; --not-started: #b79ad3;
  --interrupted: #aab4c2; --running: #6fb0f5; --waiting: #8491a1; --track: #262e39; } }
* { box-sizing: border-box; }
body { margin: 0; background: var(--paper); color: var(--ink);
  font: 16px/1.45 system-ui, sans-serif; }
main, footer { max-width: 1200px; margin: 0 auto; padding: 0 16px; }
.verdict { color: var(--on); background: var(--waiting); }
.verdict > div { max-width: 1200px; margin: 0 auto; padding: 20px 16px; display: flex; gap: 16px;
  align-items: center; }
.verdict .sign { font-size: 44px; line-height: 1; }
.verdict h1 { margin: 0; font-size: 28px; line-height: 1.2; }
.verdict p { margin: 4px 0 0; overflow-wrap: anywhere; }
.good { background: var(--ok); } .bad { background: var(--failed); }
.busy { background: var(--running); } .open { background: var(--canceled); }
h2 { font-size: 20px; margin: 28px 0 10px; }
h3 { font-size: 16px; margin: 0; overflow-wrap: anywhere; }
p { margin: 4px 0; }
code, pre { font: 13px/1.45 ui-monospace, monospace; overflow-wrap: anywhere; }
pre { white-space: pre-wrap; margin: 8px 0; padding: 8px 10px; background: var(--track);
  border-radius: 4px; tab-size: 8; }
.path { user-select: all; }
.soft { color: var(--soft); font-size: 14px; }
.card { background: var(--card); border: 1px solid var(--line); border-radius: 6px;
  padding: 12px 14px; margin: 0 0 12px; }
.failure { border-left: 5px solid var(--failed); }
.why { color: var(--failed); }
.bar { display: flex; height: 14px; border-radius: 4px; overflow: hidden;
  background: var(--track); margin: 8px 0; }
.bar span { min-width: 3px; }
.legend { display: flex; flex-wrap: wrap; gap: 2px 16px; list-style: none; padding: 0; margin: 0;
  font-size: 14px; }
.legend i { display: inline-block; width: 10px; height: 10px; border-radius: 2px;
  margin-right: 6px; }
.ok { background: var(--ok); } .failed { background: var(--failed); }
.canceled { background: var(--canceled); } .not-started { background: var(--not-started); }
.interrupted { background: repeating-linear-gradient(135deg, var(--interrupted) 0 4px,
  var(--track) 4px 7px); } .running { background: var(--running); }
.waiting, .not-needed, .not-due, .left-out { background: var(--waiting); }
.head { display: flex; flex-wrap: wrap; gap: 2px 14px; align-items: baseline; }
.times { margin: 10px 0 0; }
summary { cursor: pointer; font-size: 14px; color: var(--soft); }
.more[open] > summary { margin-bottom: 12px; }
.time { display: grid; grid-template-columns: 200px 1fr 150px; gap: 0 12px; align-items: center;
  padding: 3px 0; font-size: 14px; }
.times .key { overflow-wrap: anywhere; }
.times .said { text-align: right; color: var(--soft); }
.track { position: relative; height: 16px; background: var(--track); border-radius: 3px; }
.track span { position: absolute; top: 2px; bottom: 2px; min-width: 3px; border-radius: 2px; }
.track .deadline { top: 0; bottom: 0; min-width: 0; width: 0; border-radius: 0;
  border-left: 2px dashed var(--failed); }
.axis { position: relative; height: 18px; font-size: 12px; color: var(--soft); }
.axis span { position: absolute; border-left: 1px solid var(--line); padding-left: 3px; }
footer { padding-bottom: 30px; }
@media (max-width: 700px) {
  .verdict .sign { font-size: 34px; } .verdict h1 { font-size: 23px; }
  .time { grid-template-columns: 1fr auto; }
  .time .track, .time .axis { grid-column: 1 / 3; grid-row: 2; } }
"""
