"""A run as a page for any browser, in parts that open by a click."""

from ..console import Progress, counted
from ..traces import File
from .picture import Picture, legend_picture, parts_of
from .runs import Run
from .svg import escape

STYLE = """
body{margin:0;background:#f2f4f7;color:#1f2630;font:15px/1.5 system-ui,-apple-system,'Segoe UI',Roboto,'DejaVu Sans',sans-serif}
main{max-width:1500px;margin:0 auto;padding:28px 24px 60px}
h1{font-size:24px;margin:0 0 4px}h2{font-size:18px;margin:34px 0 8px}p{margin:4px 0 12px;max-width:75em}
.sum{color:#59616d}.card{background:#fff;border:1px solid #dfe3e9;border-radius:10px;margin:12px 0;overflow:hidden}
.scroll{overflow-x:auto;padding:4px 6px}summary{cursor:pointer;padding:9px 16px;font-weight:600;list-style-position:inside}
summary .less{font-weight:400;color:#59616d;margin-left:8px}
.key{position:sticky;top:0;z-index:2;background:#fffffff2;padding:4px 6px}
pre{font:12px/1.5 ui-monospace,SFMono-Regular,Menlo,Consolas,'DejaVu Sans Mono',monospace;
overflow-x:auto;margin:0;padding:10px 16px}
.wrong{border-color:#c62f2f;background:#fff6f6;padding:8px 16px}
button{font:inherit;padding:3px 12px;margin-right:8px;border:1px solid #c6ccd5;border-radius:6px;background:#fff;cursor:pointer}
.bar{display:inline-block;height:9px;border-radius:2px;margin-right:1px}
@media print{body{background:#fff}main{padding:0;max-width:none}.key{position:static}button{display:none}
.card{break-inside:avoid-page;border:none}svg{max-width:100%;height:auto}}
""".strip()

SCRIPT = """
const all=open=>document.querySelectorAll('details.part').forEach(part=>{part.open=open});
addEventListener('beforeprint',()=>all(true));
""".strip()


def summary_of(run: Run, first: int, last: int) -> str:
    items = [item for item in run.items if first <= item.version <= last]
    calls = [item for item in items if item.is_call]
    said = [
        counted(len(calls), "call"),
        counted(sum(item.was_refused for item in calls), "refused call"),
        counted(sum(item.line.word == "fault" for item in items), "fault"),
        counted(sum(item.line.word in ("maps", "fork") for item in items), "read", "reads"),
    ]
    return (
        ", ".join(text for text in said if not text.startswith("0 "))
        + f"; {counted(len(run.lists[last]), 'area')} then"
    )


def page(runs: list[Run], files: dict[int, File], title: str) -> str:
    items = [item for run in runs for item in run.items]
    threads = {item.line.thread for item in items}
    out = [
        "<!DOCTYPE html>",
        f'<html lang="en"><head><meta charset="utf-8"><title>{escape(title)}</title>',
        '<meta name="viewport" content="width=device-width, initial-scale=1">',
        f"<style>{STYLE}</style></head><body><main>",
        f"<h1>{escape(title)}</h1>",
        f'<p class="sum">{counted(sum(item.is_call for item in items), "call")}, of which '
        f"{sum(item.is_call and item.was_refused for item in items)} refused; "
        f'{counted(sum(item.line.word == "fault" for item in items), "fault")}; {counted(len(threads), "thread")}. '
        "Time goes down by version of the list. Point at anything for its whole text.</p>",
    ]
    many = sum(len(parts_of(run)) for run in runs) > 1
    if many:
        out.append(
            '<p><button onclick="all(true)">Open all parts</button><button onclick="all(false)">Close all parts</button></p>'
        )
    for wrong in [difference for run in runs for difference in run.differences][:50]:
        out.append(f'<div class="card wrong">{escape(wrong)}</div>')
    out.append(f'<div class="card key"><div class="scroll">{legend_picture(runs)}</div></div>')
    for run in runs:
        out += run_page(run, files, len(runs) > 1, many)
    out.append(f"</main><script>{SCRIPT}</script></body></html>")
    return "\n".join(out) + "\n"


def run_page(run: Run, files: dict[int, File], with_title: bool, many: bool) -> list[str]:
    out, progress = [f"<h2>{escape(run.title)}</h2>"] if with_title else [], Progress()
    for place, (first, last) in enumerate(parts_of(run)):
        is_open = (
            " open"
            if place == 0 or not many or any(item.expected for item in run.items if first <= item.version <= last)
            else ""
        )
        said = f"Version {first}" if first == last else f"Versions {first} to {last}"
        out.append(
            f'<details class="card part"{is_open}><summary>{said}'
            f'<span class="less">{summary_of(run, first, last)}</span></summary>'
            f'<div class="scroll">{Picture(run, first, last, files).draw()}</div></details>'
        )
        progress.tell(f"{last} of {len(run.lists) - 1} versions drawn")
    progress.clear()
    final = escape("\n".join(run.maps(len(run.lists) - 1)))
    out.append(
        '<details class="card"><summary>The list at the end<span class="less">as /proc/PID/maps has it</span></summary>'
        f"<pre>{final}</pre></details>"
    )
    return out
