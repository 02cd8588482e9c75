"""The page's words and its table: what each group asked for and kept, and whether what was worked out here is what the report says."""
import html

from words import CAUSES, STATUS, listed, some

CODE_SHOWN = {0: 10, 7: 8, 8: 1, 9: 0, 10: 2, 11: 12, 18: 12}  # document 01, "Status out": all other states show busy
TITLES = {"lost_state": "state", "lost_slot": "slot", "lost_gap": "gap", "lost_cal": "cal."}
TITLES |= {f"lost_r{n}": f"rule {n}" for n in range(1, 5)}


def headline(common, settings, blocks, bins):
    """The bench in a line."""
    groups = listed(blocks) if blocks else "none"
    said = [some(common["crossings"], "crossing") + f" in orbits of {settings['orbit']:,}"]
    said.append(f"group {groups}" if len(blocks) == 1 else f"groups {groups}")
    wrong = common["bc_errors"]
    said.append(f"{some(wrong, 'orbit marker') if wrong else 'no orbit marker'} came at a wrong number")
    if 0 < len(bins.crossings) < common["crossings"]:
        said.append(f"drawn: crossings {bins.crossings[0]:,} to {bins.crossings[-1]:,}")
    if bins.width > 1:
        said.append(f"in steps of {bins.width:,} crossings")
    return " · ".join(said) + "."


# ---- what was worked out, beside the report


def compared(reading, common, blocks):
    """Each line of the report that the page works out too: whose it is, its name, what was found here and what the report has."""
    lines = [("", name, value, common[name]) for name, value in reading.common().items()]
    for k, block in blocks.items():
        lines += [(f"group {k}: ", name, value, block[name]) for name, value in reading.block(k).items()]
    return lines


def check(reading, common, blocks):
    lines = compared(reading, common, blocks)
    differing = [f"{where}{name} is {mine:,} here and {its:,} in the report" for where, name, mine, its in lines if mine != its]
    if reading.odd:
        differing.append(f"{some(reading.odd, 'request')} sent or kept back without a cause that is found here")
    if not differing:
        told = "Number, holder and cause of each loss were worked out again from settings, records and rows: "
        return f'<p class="check">{told}all {len(lines)} closing counts are the report’s.</p>'
    items = "".join(f"<li>{html.escape(line)}</li>" for line in differing)
    told = "This page and the report differ. Go by the report, and tell who keeps the desk."
    return f'<div class="check differs"><p>{told}</p><ul>{items}</ul></div>'


# ---- sentences


def losses(block):
    """`761 were lost to its state, 60 to the slot and 567 to the rules (24 to rule 1 and 543 to rule 4)`"""
    plain = [cause for cause in CAUSES if not cause.startswith("lost_r")]
    lost = [(block[cause], CAUSES[cause]) for cause in plain if block[cause]]
    rules = [(block[cause], CAUSES[cause]) for cause in CAUSES if cause not in plain and block[cause]]
    if len(rules) == 1:
        lost += rules
    elif rules:
        lost.append((block["lost_throttle"], f"the rules ({listed([f'{count:,} to {rule}' for count, rule in rules])})"))
    told = [f"{count:,} to {words}" for count, words in lost]
    first, words = lost[0]
    return listed([f"{first:,} {'was' if first == 1 else 'were'} lost to {words}"] + told[1:])


def sentence(k, block, started, earlier):
    asked, kept = block["requested"], block["accepted"]
    if not asked:
        said = f"Group {k} asked for no trigger"
    elif asked == kept:
        said = f"Group {k} asked {some(asked, 'time')} and kept {'it' if kept == 1 else 'all'}"
    else:
        said = f"Group {k} asked {some(asked, 'time')} and kept {kept:,}: {losses(block)}"
    if block["cal_requested"]:
        got = block["cal_accepted"]
        said += f". It asked for {some(block['cal_requested'], 'calibration trigger')} and got {got:,}"
    if started:
        said += f". This is since its START before crossing {started:,}"
        said += f"; before that it had asked {some(earlier, 'time')}" if earlier else ""
    return said + "."


def group_words(k, block, reading):
    told = sentence(k, block, reading.started[k], reading.asked[k] - block["requested"])
    return f'<p class="sentence">{html.escape(told)}</p>\n{bar(block)}'


def sentences(reading, blocks):
    if not blocks:
        return '<p class="sentence">No group has a slot, so nobody can send a trigger.</p>'
    return "\n".join(group_words(k, block, reading) for k, block in blocks.items())


# ---- table and bars


def bar(block):
    """Sent and lost by each cause, side by side, named where there is room."""
    if not block["requested"]:
        return ""
    parts = [("sent", block["accepted"], "sent")]
    parts += [(cause.replace("_", "-"), block[cause], f"lost to {words}") for cause, words in CAUSES.items()]
    spans = (
        f'<span style="flex: {count} 1 0; background: var(--{colour})" title="{count:,} {words}"><b>{words}</b></span>'
        for colour, count, words in parts
        if count
    )
    return f'<div class="bar" role="img" aria-label="sent and lost by cause, as the sentence says">{"".join(spans)}</div>'


def share(block):
    lost = block["requested"] - block["accepted"]
    return f"{100 * lost / block['requested']:.1f} %" if block["requested"] else "none"


def head():
    """Two rows of titles: those of the losses and of the calibration triggers stand under one more."""
    single = "".join(f'<th scope="col" rowspan="2">{title}</th>' for title in ("group", "asked", "sent"))
    spans = f'<th scope="colgroup" colspan="{len(TITLES)}">lost to</th><th scope="col" rowspan="2">share lost</th>'
    spans += '<th scope="colgroup" colspan="3">calibration triggers</th>'
    last = "".join(f'<th scope="col" rowspan="2">{title}</th>' for title in ("events", "at the end"))
    under = "".join(f'<th scope="col">{title}</th>' for title in [*TITLES.values(), "asked", "sent", "lost"])
    return f"<thead><tr>{single}{spans}{last}</tr><tr>{under}</tr></thead>"


def table(blocks):
    rows = []
    for k, block in blocks.items():
        before = [block["requested"], block["accepted"], *(block[cause] for cause in TITLES)]
        after = [block["cal_requested"], block["cal_accepted"], block["cal_lost"], block["events"]]
        cells = [f"{count:,}" for count in before] + [share(block)] + [f"{count:,}" for count in after]
        cells.append(STATUS[CODE_SHOWN.get(block["state"], 4)])
        rows.append(f'<tr data-ptc="{k}"><th scope="row">{k}</th>' + "".join(f"<td>{cell}</td>" for cell in cells) + "</tr>")
    return f"<table>{head()}<tbody>{''.join(rows)}</tbody></table>"


# ---- legends


def legend(what, items):
    swatches = "".join(f'<li><span class="swatch" style="background: var(--{colour})"></span>{words}</li>' for colour, words in items)
    return f'<ul class="legend titled"><li class="what">{what}</li>{swatches}</ul>'


def legends():
    statuses = [(f"status-{name.replace(' ', '-')}", name) for name in STATUS.values()]
    causes = [(cause.replace("_", "-"), words) for cause, words in CAUSES.items()]
    triggers = [("sent", "a trigger, above"), ("calibrated", "a calibration trigger, below, with a dot")]
    fills = [("fill", "triggers in the rule’s last period"), ("limit", "its limit; dashed, the one under warning")]
    return "\n".join([legend("Status", statuses), legend("Triggers", triggers), legend("Lost to", causes), legend("Windows", fills)])
