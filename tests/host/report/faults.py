"""Wrong pages: a change of a page's script or data, and the check that must find it."""

import base64
import hashlib
import re
from collections import namedtuple

# What is wrong, the page, the check, and the text that is replaced by another.
Fault = namedtuple("Fault", "what page check old new")

FAULTS = [
    Fault("an alert is left out of the list", "demo", "listing", "if (!answers.has(answer)) continue;", "if (!answers.has(answer) || place === 11) continue;"),
    Fault("the last record is left out", "demo", "listing", "place < trace.count; place++) {\n      const answer", "place < trace.count - 1; place++) {\n      const answer"),
    Fault("the steps of the listing are off by one", "demo", "listing", "return `${place + 1} ${word}", "return `${place} ${word}"),
    Fault("the steps of the arrows are off by one", "demo", "explanations", "label: `${hop.step} ${hop.verb}", "label: `${hop.step + 1} ${hop.verb}"),
    Fault("the name of a number's first holder stays", "demo", "listing", "held.lanes[countUpTo(held.steps, step) - 1]", "held.lanes[0]"),
    Fault("running atoms are lost", "demo", "listing", "[...Array(64).keys()]", "[...Array(32).keys()]"),
    Fault("a chain lacks its last box", "demo", "explanations", "return [{name: way.begins, label: \"\"}, ...boxes];", "return [{name: way.begins, label: \"\"}, ...boxes.slice(0, -1)];"),
    Fault("an explanation of another alert", "demo", "explanations", "trace.explanations.get(step)", "trace.explanations.get(12)"),
    Fault("the filter by container does nothing", "demo", "filters", "if (holder && !takesPart(holder, place)) continue;", ""),
    Fault("the count is of all records", "demo", "filters", "`${list.rows.length.toLocaleString(\"en\")} of", "`${trace.count.toLocaleString(\"en\")} of"),
    Fault("the rows are sorted by text where they are numbers", "demo", "order", "order: (place) => place}", "order: (place) => String(place)}"),
    Fault("a span begins a step too late", "demo", "lanes", "lane.steps.push(place + 1);", "lane.steps.push(place + 2);"),
    Fault("a container that has ended is still there", "demo", "lanes", "if (LEAVES.has(code[place])) lane.last = place + 1;", "if (LEAVES.has(code[place])) return;"),
    Fault("the arrow keys do nothing", "demo", "keyboard", "on(\"list\", \"keydown\", onListKey);", ""),
    Fault("a button without a name", "demo", "readable", "\"aria-label\": `Details of step ${place + 1}`", "\"aria-label\": \"\""),
    Fault("the alerts are left out on paper", "demo", "paper", "list.rows.slice(0, PRINTED_ROWS)", "list.rows.slice(1, PRINTED_ROWS)"),
    Fault("the rate has no remainder", "month", "month", "${1000 * alerts % accepted}/", "0/"),
    Fault("something is asked of the network", "demo", "order", "  showHead();\n", "  showHead();\n  fetch(\"http://example.invalid/\");\n"),
    Fault("a name becomes markup", "hostile", "hostile", "element.append(...children);",
          "for (const child of children) typeof child === \"string\" ? element.insertAdjacentHTML(\"beforeend\", child) : element.append(child);"),
    Fault("a name ends the element of the data", "hostile", "hostile", "\\u003c", "<"),
    Fault("marks of direction are not spelled", "hostile", "hostile", "/[\\p{Cc}\\p{Cf}\\p{Zl}\\p{Zp}]/gu", "/[\\p{Cc}]/gu"),
]


def planted(fault, page):
    """A page with a fault. The digest of the script is made anew: it is not that which is to find the fault."""
    head, script = page.rsplit("<script>", 1)
    script, tail = script.rsplit("</script>", 1)
    wrong_script, wrong_head = script.replace(fault.old, fault.new), head
    if fault.old not in script:
        before, data = head.split('id="data">', 1)
        wrong_head = before + 'id="data">' + data.replace(fault.old, fault.new)
    if (wrong_script, wrong_head) == (script, head):
        raise ValueError(f"nothing is wrong with this page: {fault.what}")
    digest = base64.b64encode(hashlib.sha256(wrong_script.encode()).digest()).decode()
    wrong_head = re.sub(r"script-src 'sha256-[^']*'", lambda _: f"script-src 'sha256-{digest}'", wrong_head, count=1)
    return f"{wrong_head}<script>{wrong_script}</script>{tail}"
