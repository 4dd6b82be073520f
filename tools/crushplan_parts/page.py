"""An answer as a page: one file without a server, a script or anything from elsewhere, so that it
can be sent by mail."""
import html
import os
import pathlib
import re

from .arguments import VERSION
from .faults import Fault
from .output import Table, is_number, shown

LONG = 24  # characters from which on a column of words has a least width
STATES = {0: "good", 1: "bad", 2: "unknown"}
ONLY_ITSELF = "default-src 'none'; style-src 'unsafe-inline'"
# characters that a page can't have; a lone surrogate becomes a mark too where the page is encoded
ODD = re.compile(r"[\x00-\x08\x0b-\x1f\x7f-\x9f\ufffe\uffff]")
OPTIONS = (
    ("of_class", "--class"), ("each", "--each"), ("by", "--by"), ("rate", "--rate"), ("deviation", "--deviation"),
    ("moves", "--moves"), ("until_fill", "--until-fill"),
)  # fmt: skip
STYLE = """
:root { color-scheme: light dark; --page: #f4f6f9; --card: #fff; --text: #17202c; --soft: #566272;
  --line: #d9dfe7; --track: #e6eaf0; --old: #94a3b8; --new: #2457c5; --near: #b45309; --full: #b42318;
  --good: #0f6b4f; --bad: #b42318; --unknown: #92400e; }
@media (prefers-color-scheme: dark) { :root { --page: #10151c; --card: #19202a; --text: #e6ebf2; --soft: #9fadbf;
  --line: #2e3947; --track: #2a3442; --old: #64748b; --new: #8fb4ff; --near: #f5b454; --full: #ff9d94;
  --good: #6fd3ae; --bad: #ff9d94; --unknown: #f5b454; } }
* { box-sizing: border-box; }
body { margin: 0; padding: 1rem clamp(.75rem, 3vw, 3rem) 3rem; background: var(--page); color: var(--text);
  font: 16px/1.5 system-ui, "Segoe UI", "Noto Sans", "DejaVu Sans", sans-serif; overflow-wrap: anywhere; }
main { max-width: 75rem; margin: 0 auto; }
h1 { font-size: clamp(1.2rem, 3.5vw, 1.6rem); line-height: 1.3; margin: 0 0 .5rem; padding-left: .75rem;
  border-left: .4rem solid; }
h1.good { border-color: var(--good); } h1.bad { border-color: var(--bad); } h1.unknown { border-color: var(--unknown); }
h2 { font-size: 1.05rem; margin: 0 0 .5rem; }
p, ul { margin: 0 0 .75rem; } ul { padding-left: 1.25rem; }
.of, .key { color: var(--soft); font-size: .875rem; }
section { background: var(--card); border: 1px solid var(--line); border-radius: 10px; padding: 1rem;
  margin: 0 0 1rem; }
section > :last-child { margin-bottom: 0; }
/* a shadow at an edge behind which there is more of the table */
.scroll { overflow-x: auto; background:
  linear-gradient(to right, var(--card), var(--card)) left / 1.5rem 100% local no-repeat,
  linear-gradient(to left, var(--card), var(--card)) right / 1.5rem 100% local no-repeat,
  linear-gradient(to right, var(--line), transparent) left / 1rem 100% scroll no-repeat,
  linear-gradient(to left, var(--line), transparent) right / 1rem 100% scroll no-repeat; }
table { border-collapse: collapse; font-size: .925rem; font-variant-numeric: tabular-nums; }
th, td { padding: .25rem .75rem .25rem 0; overflow-wrap: normal; text-align: left; vertical-align: top;
  border-bottom: 1px solid var(--line); }
tr:last-child > * { border-bottom: 0; } thead th { border-bottom: 1px solid var(--soft); white-space: nowrap; }
tbody th { font-weight: 500; } .n { text-align: right; white-space: nowrap; }
.w { min-width: 14rem; }
pre { margin: 0; white-space: pre-wrap; font: .875rem/1.5 ui-monospace, "DejaVu Sans Mono", monospace; }
.bars { display: grid; grid-template-columns: auto auto minmax(6rem, 1fr) auto; gap: 0 .75rem; align-items: center;
  font-size: .875rem; font-variant-numeric: tabular-nums; }
.bars svg { display: block; width: 100%; height: 1.5rem; } .bars .n, .bars .above { color: var(--soft); }
.bars .n b { color: var(--text); font-weight: 500; }
.track { fill: var(--track); } .old { fill: var(--old); } .new { fill: var(--new); }
.near-full, .backfill-full { stroke-width: 2; stroke-dasharray: 4 3; }
.near-full { stroke: var(--near); } .backfill-full { stroke: var(--full); stroke-dasharray: none; }
.key span { white-space: nowrap; margin-right: 1rem; } .key svg { width: .9rem; height: .9rem; vertical-align: -.1rem; }
@media (max-width: 600px) {
  .bars { grid-template-columns: auto minmax(4rem, 1fr) auto; gap: 0 .5rem; } .bars .above { display: none; } }
@media print { body { background: none; padding: 0; } section { break-inside: avoid; border: 0; padding: 0; } }
"""


def write_page(path, answer, asked, plan):
    """Writes an answer as a page into a file, whole or not at all, and says so in the answer."""
    write_whole(path, page_text(answer, asked, plan).encode("utf-8", "replace"))
    answer.add(f"{path} is this as a page.")


def write_whole(path, data, option="--html"):
    """Writes a file: another one beside it, which then takes its name."""
    if path == "-":
        raise Fault(f"{option} -: it is written into a file")
    target = pathlib.Path(os.path.realpath(path))
    if target.exists() and not target.is_file():
        raise Fault(f"{option} {path}: it is there, and isn't a file")
    part = target.with_name(f".{target.name[:200]}.{os.getpid()}.part")
    try:
        with open(part, "xb") as file:
            file.write(data)
            file.flush()
            os.fsync(file.fileno())
        os.replace(part, target)
    except OSError as error:
        raise Fault(f"{option} {path}: {error.strerror or error}") from None
    finally:
        part.unlink(missing_ok=True)


def escaped(text):
    return html.escape(ODD.sub("\ufffd", str(text)))


def command_text(asked):
    """Returns the command, without what says where the program is and who asks it."""
    own = [asked.command, asked.folder, *getattr(asked, "names", ())]
    own += [it for it in (getattr(asked, "new", None), getattr(asked, "file", None)) if it]
    own += [f"{option} {value}" for name, option in OPTIONS if (value := getattr(asked, name, None))]
    return " ".join(["crushplan", *own])


def page_text(answer, asked, plan):
    """Returns the whole page."""
    state = STATES.get(answer.status, "unknown")
    command = command_text(asked)
    about = f"{command} · map {plan.map.file} · crushplan {VERSION}, {plan.client.words()}"
    parts = [f'<h1 class="{state}">{escaped(answer.sentence)}</h1>', f'<p class="of">{escaped(about)}</p>']
    blocks = [it for it in answer.blocks if it]
    drawing = answer.drawing() if answer.drawing else None
    first = place_of_drawing(blocks)
    parts += [block_text(it) for it in blocks[:first]]
    if drawing and drawing.bars:
        parts.append(drawing_text(drawing))
    parts += [block_text(it) for it in blocks[first:]]
    notes = [*plan.cluster.warnings, *(it.text for it in plan.notes if not it.open and answer.concerns(it))]
    parts += [list_text("Notes", notes), list_text("Not computed", [it.short for it in plan.notes if it.open])]
    body = "\n".join(it for it in parts if it)
    return (
        f'<!DOCTYPE html>\n<html lang="en">\n<head>\n<meta charset="utf-8">\n<title>{escaped(command)}</title>\n'
        '<meta name="viewport" content="width=device-width, initial-scale=1">\n'
        f'<meta http-equiv="Content-Security-Policy" content="{ONLY_ITSELF}">\n'
        f"<style>{STYLE}</style>\n</head>\n<body>\n<main>\n{body}\n</main>\n</body>\n</html>\n"
    )


def place_of_drawing(blocks):
    """Returns where the drawing stands: behind the last summary, whose columns have no heads, or
    else before the first table."""
    tables = [place for place, it in enumerate(blocks) if isinstance(it, Table)]
    summaries = [it for it in tables if not any(blocks[it].heads[1:])]
    return summaries[-1] + 1 if summaries else tables[0] if tables else len(blocks)


def list_text(title, texts):
    if not texts:
        return ""
    items = "".join(f"<li>{escaped(it)}</li>\n" for it in texts)
    return f"<section>\n<h2>{title}</h2>\n<ul>\n{items}</ul>\n</section>"


def block_text(block):
    """Returns a table, or words: lines of which some are indented stay as they are."""
    if isinstance(block, Table):
        return table_text(block)
    if any(it.startswith(" ") for it in block.splitlines()):
        return f"<section><pre>{escaped(block)}</pre></section>"
    return f"<section><p>{escaped(' '.join(block.split()))}</p></section>"


def table_text(table):
    right = [all(is_number(row[place]) for row in table.rows) for place in range(len(table.heads))]
    count = len(table.heads)
    long = [count > 2 and any(len(shown(row[place])) > LONG for row in table.rows) for place in range(count)]
    kinds = [' class="n"' if number else ' class="w"' if wide else "" for number, wide in zip(right, long)]

    def cells(row, tags):
        return "".join(f"<{tag}{kind}>{escaped(shown(it))}</{tag}>" for it, kind, tag in zip(row, kinds, tags))

    head = f"<thead><tr>{cells(table.heads, ['th'] * count)}</tr></thead>\n" if any(table.heads) else ""
    rows = "".join(f"<tr>{cells(row, ['th', *['td'] * (count - 1)])}</tr>\n" for row in table.rows)
    title = f"<h2>{escaped(table.title.rstrip(':'))}</h2>\n" if table.title else ""
    label = escaped((table.title or "table").rstrip(":"))
    start = f'<div class="scroll" tabindex="0" role="region" aria-label="{label}">'
    return f"<section>\n{title}{start}<table>\n{head}<tbody>\n{rows}</tbody></table></div>\n</section>"


def drawing_text(drawing):
    """Returns the bars, each a drawing of its own beside its name and its numbers."""
    whole = '<rect class="{}" width="100%" height="100%"/>'
    across = '<line class="{}" x1="50%" x2="50%" y1="0" y2="100%"/>'
    key = [(whole.format(of), name) for of, name in zip(("old", "new"), drawing.words) if name is not None]
    key += [(across.format(name), f"{name}, {drawing.shown(at)}") for name, at in drawing.lines]
    marks = " ".join(f'<span><svg aria-hidden="true">{mark}</svg> {escaped(words)}</span>' for mark, words in key)
    rows = "\n".join(bar_text(drawing, it) for it in drawing.bars)
    title = f'<h2>{escaped(drawing.title)}</h2>\n<p class="key">{marks}</p>'
    return f'<section>\n{title}\n<div class="bars">\n{rows}\n</div>\n</section>'


def bar_text(drawing, bar):
    """Returns a bar: the values before and after one above the other, or one alone; its numbers
    also as attributes, for what reads the page."""
    (old, new), both = drawing.words, drawing.words[0] is not None
    before, after = drawing.shown(bar.before), drawing.shown(bar.after)
    between = " → " if drawing.words == ("before", "after") else " / "
    said = (before + between) * both + f"<b>{after}</b>"
    words = f"{bar.name}: " + f"{old} {before}, " * both + f"{new} {after}"
    data = {"name": bar.name, "before": bar.before, "after": bar.after}
    data = " ".join(f'data-{key}="{escaped(value)}"' for key, value in data.items() if value is not None)
    end, shapes = drawing.end(), ['<rect class="track" y="12%" width="100%" height="76%"/>']
    for kind, value, top, height in (
        ("old", bar.before, 12, 34),
        ("new", bar.after, *((46, 42) if both else (12, 76))),
    ):
        if value is not None:
            shapes.append(f'<rect class="{kind}" y="{top}%" width="{share_of(value, end)}%" height="{height}%"/>')
    for name, at in drawing.lines:
        place = f"{share_of(at, end)}%"
        shapes.append(f'<line class="{name}" x1="{place}" x2="{place}" y1="0" y2="100%"/>')
    picture = f'<svg role="img" aria-label="{escaped(words)}" {data}>{"".join(shapes)}</svg>'
    names = f'<span>{escaped(bar.name)}</span><span class="above">{escaped(bar.above)}</span>'
    return f'{names}{picture}<span class="n">{said}</span>'


def share_of(value, end):
    """Returns a value in percent of the end, with two decimals."""
    return round(float(value) * 100 / float(end), 2)
