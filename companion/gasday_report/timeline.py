"""A gas day's calls along a line of time, as SVG."""

from html import escape

from .day import Call, Day

WIDTH, MARGIN, LANE = 1160, 90, 26
LANES = ("nominate", "respond", "post", "waive", "freeze", "publish")
# A `settle` publishes or declares, so it stands with those.
LANE_OF = {"settle": "publish", "declare": "publish", "skip": "publish"}


def lane_of(call: Call) -> int:
    return LANES.index(LANE_OF.get(call.kind, call.kind))


def mark_svg(call: Call, x: float) -> str:
    y = 20 + lane_of(call) * LANE
    colour = "--bad" if call.refused or call.told.startswith("declared") else "--good" if lane_of(call) == 5 else "--middle"
    title = escape(f"{call.number}: {call.moment}\n{call.asked}\n{call.told}")
    return f'<circle cx="{x:.1f}" cy="{y}" r="5" fill="var({colour})"><title>{title}</title></circle>'


def timeline_of(day: Day) -> str:
    """The calls in lanes by kind: blue where they were taken, red where refused or where there was no schedule, green
    where a schedule was published or a cycle skipped."""
    moments = [call.seconds for call in day.calls]
    if not moments:
        return ""
    first, span = min(moments), max(max(moments) - min(moments), 1)
    height = 20 + len(LANES) * LANE
    drawn = []
    for k, name in enumerate(LANES):
        y = 20 + k * LANE
        label = "publish, skip" if name == "publish" else name
        drawn.append(f'<line x1="{MARGIN}" x2="{WIDTH - 20}" y1="{y}" y2="{y}" stroke="#dbe1e7"/>'
                     f'<text x="{MARGIN / 2}" y="{y + 4}">{label}</text>')
    drawn += [mark_svg(call, MARGIN + 10 + (WIDTH - MARGIN - 40) * (call.seconds - first) / span) for call in day.calls]
    ends = [(MARGIN + 60, day.calls[moments.index(first)].moment), (WIDTH - 90, day.calls[moments.index(max(moments))].moment)]
    drawn += [f'<text class="amount" x="{x}" y="{height + 8}">{escape(words)}</text>' for x, words in ends]
    return f'<svg viewBox="0 0 {WIDTH} {height + 16}" width="{WIDTH}" height="{height + 16}">{"".join(drawn)}</svg>'
