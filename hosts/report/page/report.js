"use strict";
// Lays out the data of the page. It judges nothing: each answer, tag, rule and chain was given by the library when the page was made.
// Texts come into the page as text alone (`make`), never as markup.
(() => {
  const ALERT = 256, BLOCKED = 257, MALFORMED = 7, NO_POSITION = 255;
  const LEAVES = new Set([8, 9]); // end and delete
  const END = 8;
  const SVG = "http://www.w3.org/2000/svg";
  const LISTED = 250000; // rows that a browser can scroll over
  const DRAWN_STEPS = 60; // of one chain
  const OFFERED = 500; // containers to choose from
  const PRINTED_ROWS = 1000, PRINTED_DETAILS = 50, PRINTED_LANES = 60;
  const GRAPH = {places: 24, mixtures: 20, atoms: 20};
  const MARKS = {alert: "▲", blocked: "■", refused: "✕", quiet: "·"};
  const byId = (id) => document.getElementById(id);

  // A value in whose texts no character is without a sign of its own: those that are, as marks of direction, are spelled by their numbers.
  function visible(value) {
    if (typeof value === "string")
      return value.replace(/[\p{Cc}\p{Cf}\p{Zl}\p{Zp}]/gu, (c) => (c === "\n" ? c : `\\u{${c.codePointAt(0).toString(16)}}`));
    if (Array.isArray(value)) return typeof value[0] === "number" && typeof value.at(-1) === "number" ? value : value.map(visible);
    if (value === null || typeof value !== "object") return value;
    return Object.fromEntries(Object.entries(value).map(([key, part]) => [visible(key), visible(part)]));
  }

  const data = visible(JSON.parse(byId("data").textContent));
  const refusals = new Map(data.refusals);

  // An element with attributes and children; a child that is no element becomes text.
  function make(name, attributes = {}, ...children) {
    return filled(document.createElement(name), attributes, children);
  }

  // An element of a picture.
  function draw(name, attributes = {}, ...children) {
    return filled(document.createElementNS(SVG, name), attributes, children);
  }

  // Gives an element its attributes and children.
  function filled(element, attributes, children) {
    for (const [name, value] of Object.entries(attributes)) element.setAttribute(name, value);
    element.append(...children);
    return element;
  }

  // A name, apart from the text around it, also where it is written from right to left.
  const named = (text) => make("span", {class: text.length > 40 ? "name long" : "name", title: text}, text);
  // A count with its word.
  const plural = (count, word) => `${count.toLocaleString("en")} ${word}${count === 1 ? "" : "s"}`;

  // A text of at most so many letters: the middle is left out.
  function shortened(text, most) {
    const letters = [...text];
    if (letters.length <= most) return text;
    const half = Math.max(1, Math.floor((most - 1) / 2));
    return `${letters.slice(0, half).join("")}…${letters.slice(-half).join("")}`;
  }

  // The atoms of a set that is written in 16 hexadecimal digits, rising.
  function atomsOf(digits) {
    const parts = [parseInt(digits.slice(8), 16), parseInt(digits.slice(0, 8), 16)];
    return [...Array(64).keys()].filter((atom) => (parts[atom >> 5] >>> (atom & 31)) & 1);
  }

  // The names of a set's atoms.
  const sourcesOf = (digits) => atomsOf(digits).map((atom) => data.policy.sources[atom]);
  // A list of names in words.
  const inWords = (names) => names.join(", ") || "nothing";

  // How many numbers of a rising list are at most a value.
  function countUpTo(list, value) {
    let low = 0, high = list.length;
    while (low < high) {
      const middle = (low + high) >> 1;
      if (list[middle] <= value) low = middle + 1;
      else high = middle;
    }
    return low;
  }

  // A trace: its columns, and a lane for each container that has been there.
  class Trace {
    constructor(trace) {
      const {columns, tags, holders, explanations} = trace.replay;
      this.name = trace.name;
      this.columns = columns;
      this.tags = tags;
      this.tagWords = tags.map((tag) => inWords(sourcesOf(tag)));
      this.count = columns.code.length;
      this.explanations = new Map(explanations.map((told) => [told.step, told]));
      this.lanes = holders.number.map((number, place) => ({number, place, name: holders.name[place], kind: data.kinds[holders.kind[place]],
        step: holders.step[place], last: Infinity, steps: [holders.step[place]], tags: [holders.tag[place]], alerts: [], blocked: []}));
      this.numbers = new Map();
      for (const lane of this.lanes) {
        if (!this.numbers.has(lane.number)) this.numbers.set(lane.number, {steps: [], lanes: []});
        this.numbers.get(lane.number).steps.push(lane.step);
        this.numbers.get(lane.number).lanes.push(lane);
      }
      for (let place = 0; place < this.count; place++) this.follow(place);
    }

    // Notes in the receiver's lane what a record brought.
    follow(place) {
      const {code, answer, receiver, tag} = this.columns;
      if (answer[place] !== 0 && answer[place] < ALERT) return;
      const lane = this.laneAt(receiver[place], place + 1);
      if (answer[place] === BLOCKED) {
        lane.blocked.push(place + 1);
        return;
      }
      if (answer[place] === ALERT) lane.alerts.push(place + 1);
      if (LEAVES.has(code[place])) lane.last = place + 1;
      else if (lane.tags.at(-1) !== tag[place]) {
        lane.steps.push(place + 1);
        lane.tags.push(tag[place]);
      }
    }

    // The container that has a number at a step, or had it last.
    laneAt(number, step) {
      const held = this.numbers.get(number);
      return held && held.lanes[countUpTo(held.steps, step) - 1];
    }

    // What that container is called.
    nameAt(number, step) {
      const lane = this.laneAt(number, step);
      return lane ? lane.name : `number ${number}`;
    }

    // The answer to a record, as a word.
    answer(place) {
      const answer = this.columns.answer[place];
      return answer === 0 ? "quiet" : answer === ALERT ? "alert" : answer === BLOCKED ? "blocked" : "refused";
    }

    // Who does what.
    access(place) {
      const {code, process, object, answer} = this.columns;
      if (answer[place] === MALFORMED) return "a malformed record";
      const who = `${this.nameAt(process[place], place + 1)} ${data.verbs[code[place]]}`;
      return code[place] === END ? who : `${who} ${this.nameAt(object[place], place + 1)}`;
    }

    // The name of the receiver; nothing for a refused record.
    receiver(place) {
      return this.answer(place) === "refused" ? "" : this.nameAt(this.columns.receiver[place], place + 1);
    }

    // What the receiver holds then, or why the record is refused.
    outcome(place) {
      const {answer, tag} = this.columns;
      if (this.answer(place) === "refused") return `refused ${answer[place]}: ${refusals.get(answer[place]) ?? "unknown"}`;
      const words = this.tagWords[tag[place]];
      return answer[place] === BLOCKED ? `would hold ${words}` : words;
    }

    // The line of the listing.
    line(place) {
      const {code, process, object, answer, receiver, tag, position} = this.columns;
      const told = this.answer(place) === "refused" ? answer[place]
        : `${receiver[place]} ${this.tags[tag[place]]} ${position[place]}`;
      const word = data.words[code[place]] ?? data.words[0];
      return `${place + 1} ${word} ${process[place]} ${object[place]} ${this.answer(place)} ${told}`;
    }
  }

  let trace = null;

  // ---- The list of answers: filtered, sorted, and drawn as far as it is seen.

  const list = {rows: [], key: "step", down: false, chosen: -1, active: 0};
  const COLUMNS = {
    step: {title: "Step", order: (place) => place},
    answer: {title: "Answer", order: (place) => trace.columns.answer[place]},
    access: {title: "Access", order: (place) => trace.access(place)},
    receiver: {title: "Receiver", order: (place) => trace.receiver(place)},
    holds: {title: "The receiver holds then", order: (place) => trace.outcome(place)},
  };

  // How tall a row is, as the style has it.
  const rowHeight = () => 2 * parseFloat(getComputedStyle(document.documentElement).fontSize);

  // What the filters ask for.
  function wanted() {
    const answers = [...document.querySelectorAll("[name=answer]:checked")].map((box) => box.value);
    return {
      answers: new Set(answers),
      text: byId("filter-text").value.trim().toLowerCase(),
      lane: byId("filter-container").value,
      atom: byId("filter-source").value,
    };
  }

  // Whether a container takes part in a record.
  function takesPart(lane, place) {
    const {process, object, receiver} = trace.columns;
    const numbers = [process[place], object[place]];
    if (trace.answer(place) !== "refused") numbers.push(receiver[place]);
    return numbers.some((number) => number === lane.number && trace.laneAt(number, place + 1) === lane);
  }

  // The rows that the filters let through, in the chosen order.
  function filter() {
    const {answers, text, lane, atom} = wanted();
    const tags = atom === "" ? null : new Set([...trace.tags.keys()].filter((tag) => atomsOf(trace.tags[tag]).includes(Number(atom))));
    const holder = lane === "" ? null : trace.lanes[Number(lane)];
    const rows = [];
    for (let place = 0; place < trace.count; place++) {
      const answer = trace.answer(place);
      if (!answers.has(answer)) continue;
      if (tags && (answer === "refused" || !tags.has(trace.columns.tag[place]))) continue;
      if (holder && !takesPart(holder, place)) continue;
      if (text && !wordsOf(place).includes(text)) continue;
      rows.push(place);
    }
    list.rows = rows;
    sort();
  }

  // All words of a row, for the filter by text.
  const wordsOf = (place) =>
    `${place + 1} ${trace.answer(place)} ${trace.access(place)} ${trace.receiver(place)} ${trace.outcome(place)}`.toLowerCase();

  // Puts the rows in the chosen order, says how many they are, and draws them from the first.
  function sort() {
    const {order} = COLUMNS[list.key];
    const keys = new Map(list.rows.map((place) => [place, order(place)]));
    const compare = (one, other) => {
      const [a, b] = [keys.get(one), keys.get(other)];
      return (a < b ? -1 : a > b ? 1 : 0) * (list.down ? -1 : 1) || one - other;
    };
    if (list.key !== "step" || list.down) list.rows.sort(compare);
    else list.rows.sort((one, other) => one - other);
    for (const key of Object.keys(COLUMNS))
      byId(`head-${key}`).setAttribute("aria-sort", key !== list.key ? "none" : list.down ? "descending" : "ascending");
    const more = list.rows.length > LISTED ? `; the first ${LISTED.toLocaleString("en")} are listed, filter for the others` : "";
    byId("count").textContent = `${list.rows.length.toLocaleString("en")} of ${plural(trace.count, "record")}${more}`;
    list.active = Math.max(0, list.rows.indexOf(list.chosen));
    byId("list").scrollTop = 0;
    byId("list-table").setAttribute("aria-rowcount", list.rows.length + 1);
    showRows();
  }

  // One row of the list.
  function row(index) {
    const place = list.rows[index], answer = trace.answer(place), chosen = place === list.chosen;
    const button = make("button", {type: "button", tabindex: index === list.active ? 0 : -1, "aria-pressed": chosen,
      "aria-controls": "details", "aria-label": `Details of step ${place + 1}`}, String(place + 1));
    button.addEventListener("click", () => choose(index));
    const cell = (text) => make("td", {title: text}, make("span", {class: "name"}, text));
    const element = make("tr", {"aria-rowindex": index + 2}, make("th", {scope: "row"}, button),
      make("td", {class: answer}, `${MARKS[answer]} ${answer}`), cell(trace.access(place)), cell(trace.receiver(place)),
      cell(trace.outcome(place)));
    if (chosen) element.className = "chosen";
    return element;
  }

  // A row that stands for so many that are not drawn.
  function gap(count) {
    const cell = make("td", {colspan: Object.keys(COLUMNS).length});
    cell.style.height = `${count * rowHeight()}px`;
    return make("tr", {class: "gap", "aria-hidden": "true"}, cell);
  }

  // Draws the rows that are seen, and some around them.
  function showRows() {
    const area = byId("list"), height = rowHeight(), count = Math.min(list.rows.length, LISTED);
    const first = Math.max(0, Math.floor(area.scrollTop / height) - 10);
    const last = Math.min(count, Math.ceil((area.scrollTop + area.clientHeight) / height) + 10);
    const drawn = [];
    if (first > 0) drawn.push(gap(first));
    for (let index = first; index < last; index++) drawn.push(row(index));
    if (last < count) drawn.push(gap(count - last));
    const focused = byId("rows").contains(document.activeElement);
    byId("rows").replaceChildren(...drawn);
    if (focused) focusActive();
  }

  // Puts the focus on the row that the keyboard is on.
  function focusActive() {
    byId("rows").querySelector("button[tabindex='0']")?.focus({preventScroll: true});
  }

  // Makes a row the one that the keyboard is on.
  function activate(index) {
    const area = byId("list"), height = rowHeight(), head = byId("list-head").offsetHeight;
    list.active = Math.max(0, Math.min(index, Math.min(list.rows.length, LISTED) - 1));
    const top = list.active * height;
    if (top < area.scrollTop) area.scrollTop = top;
    if (top + height + head > area.scrollTop + area.clientHeight) area.scrollTop = top + height + head - area.clientHeight;
    showRows();
    focusActive();
  }

  // The keys that go from row to row.
  function onListKey(event) {
    const page = Math.max(1, Math.floor(byId("list").clientHeight / rowHeight()) - 1);
    const moves = {ArrowDown: 1, ArrowUp: -1, PageDown: page, PageUp: -page, Home: -Infinity, End: Infinity};
    if (!(event.key in moves) || !byId("rows").contains(event.target)) return;
    event.preventDefault();
    activate(list.active + moves[event.key]);
  }

  // Shows the details of a row.
  function choose(index) {
    list.chosen = list.rows[index];
    list.active = index;
    showRows();
    byId("details-body").replaceChildren(details(list.chosen));
    byId("details-heading").textContent = `Details of step ${list.chosen + 1}`;
  }

  // ---- The details of a record: its answer, its certificate and its chains.

  // The details of a record.
  function details(place) {
    const step = place + 1, told = trace.explanations.get(step), body = make("div", {class: "explained"});
    const answer = trace.answer(place);
    body.append(make("p", {}, make("span", {class: answer}, `${MARKS[answer]} ${answer}`), ", ", `step ${step}: `, named(trace.access(place))));
    if (answer === "refused") body.append(make("p", {}, trace.outcome(place)));
    else body.append(make("p", {}, "Receiver: ", named(trace.receiver(place)), answer === "blocked" ? ", which would hold " : ", which then holds ",
      named(trace.tagWords[trace.columns.tag[place]])));
    if (told) body.append(...certificate(told), ...told.lacked.flatMap((atom) => chain(atom, told.chains[atom])), inTheWords(told));
    else if (answer === "alert" || answer === "blocked")
      body.append(make("p", {}, "Its explanation is not in this page: ", make("code", {}, `policy explain FOLDER --step ${step}`), " tells it."));
    body.append(make("h4", {}, "In the listing"), make("pre", {class: "line"}, trace.line(place)));
    return body;
  }

  // The rule that forbids, and what each of its mixtures lacks.
  function certificate(told) {
    const {origin} = told;
    const owner = origin.owner === null ? "" : `, set by ${origin.owner}`;
    const words = make("p", {}, named(`${told.rule}${owner}`), ` (rule ${origin.number} of the policy)`);
    const parts = [make("h4", {}, "Why: the rule that forbids"), words];
    if (told.mixtures.length === 0) parts.push(make("p", {}, "It has no mixtures, and permits nothing at all."));
    else {
      const rows = told.mixtures.map((mixture, place) => [`{${mixture.join(", ")}}`, told.lacks[place]]);
      parts.push(table("What it permits, and what each mixture lacks of what is held", ["Mixture", "It lacks"], rows));
    }
    if (told.also.length) parts.push(make("p", {}, "No mixture has these either: ", named(told.also.join(", "))));
    if (origin.chain) parts.push(...chain("the run rule", origin.chain));
    return parts;
  }

  // A chain as a picture and as a list.
  function chain(what, way) {
    const items = way.steps.map((hop) => make("li", {}, named(hop.to), ` (step ${hop.step}, ${hop.verb}${hop.blocked ? ", blocked" : ""})`));
    const first = make("li", {}, named(way.begins), " (there from the start)");
    return [make("h4", {}, "How ", named(what), " came there"), chainPicture(what, way), make("ol", {class: "chain"}, first, ...items)];
  }

  // An explanation as `policy explain` prints it.
  function inTheWords(told) {
    return make("div", {}, make("h4", {}, "The same in words"), make("pre", {class: "words"}, told.text.trimEnd()));
  }

  // The boxes of a chain, each with the label of the arrow that leads to it. Of a long one the middle is left out.
  function chainBoxes(way) {
    const boxes = way.steps.map((hop) => ({name: hop.to, label: `${hop.step} ${hop.verb}${hop.blocked ? ", blocked" : ""}`}));
    if (boxes.length > DRAWN_STEPS) {
      const half = DRAWN_STEPS / 2, left = boxes.length - DRAWN_STEPS;
      boxes.splice(half, left, {name: `… ${plural(left, "step")} more`, label: ""});
    }
    return [{name: way.begins, label: ""}, ...boxes];
  }

  // Places boxes in lines that are not wider than the width.
  function placeBoxes(boxes, width) {
    let x = 2, y = 24;
    for (const box of boxes) {
      box.text = shortened(box.name, 26);
      box.width = Math.max(50, 7.2 * [...box.text].length + 16);
      box.before = box.label ? Math.max(64, 6.2 * box.label.length + 18) : 40;
      const start = x === 2;
      if (!start && x + box.before + box.width > width) {
        x = 2;
        y += 62;
        box.turned = true;
        x += box.before + 10;
      } else if (!start) x += box.before;
      Object.assign(box, {x, y});
      x += box.width;
    }
    return y + 44;
  }

  // A chain as a picture.
  function chainPicture(what, way) {
    const width = Math.max(300, Math.min(1300, byId("answers").clientWidth - 40));
    const boxes = chainBoxes(way), height = placeBoxes(boxes, width);
    const used = Math.max(...boxes.map((box) => box.x + box.width)) + 4;
    const words = boxes.map((box) => (box.label ? `by step ${box.label} to ${box.name}` : box.name)).join(", ");
    const picture = draw("svg", {role: "img", "aria-label": `Chain of ${what}: ${words}`, viewBox: `0 0 ${used} ${height}`, width: used, height},
      arrowHead());
    boxes.forEach((box, place) => {
      if (place > 0) picture.append(...arrow(boxes[place - 1], box));
      const kind = place === 0 ? "box first" : place === boxes.length - 1 ? "box last" : "box";
      picture.append(draw("g", {}, draw("title", {}, box.name),
        draw("rect", {class: kind, x: box.x, y: box.y, width: box.width, height: 30, rx: 4}),
        draw("text", {class: "count", x: box.x + box.width / 2, y: box.y + 20}, box.text)));
    });
    return picture;
  }

  // The head of all arrows in a picture.
  const arrowHead = () => draw("defs", {}, draw("marker", {id: "head", viewBox: "0 0 8 8", refX: 7, refY: 4, markerWidth: 7, markerHeight: 7,
    orient: "auto"}, draw("path", {class: "head", d: "M0 0L8 4L0 8Z"})));

  // The arrow from one box to the next, with its label; the first of a line comes from the line above.
  function arrow(from, to) {
    const middle = to.y + 15, label = [];
    const begins = to.turned ? `M${from.x + from.width / 2} ${from.y + 30}V${to.y - 16}H8V${middle}` : `M${from.x + from.width} ${middle}`;
    const before = to.turned ? 8 : from.x + from.width;
    if (to.label) label.push(draw("text", {class: "label", x: (before + to.x) / 2, y: middle - 6}, to.label));
    return [draw("path", {class: "arrow", d: `${begins}H${to.x - 1}`}), ...label];
  }

  // A table of texts; a column whose cells are all numbers stands at the right.
  function table(caption, heads, rows) {
    const numeric = heads.map((_, column) => rows.length > 0 && rows.every((cells) => typeof cells[column] === "number"));
    const kind = (column) => (numeric[column] ? {class: "number"} : {});
    const cell = (text, column) => {
      const words = typeof text === "number" ? text.toLocaleString("en") : named(text);
      return column === 0 ? make("th", {scope: "row", ...kind(column)}, words) : make("td", kind(column), words);
    };
    return make("table", {}, make("caption", {}, caption),
      make("thead", {}, make("tr", {}, ...heads.map((head, column) => make("th", {scope: "col", ...kind(column)}, head)))),
      make("tbody", {}, ...rows.map((cells) => make("tr", {}, ...cells.map(cell)))));
  }

  // ---- Containers over time: lanes, drawn as far as they are seen.

  const lanes = {shown: [], first: 0, last: 1};
  // How tall a lane is, as the style has it.
  const laneHeight = () => 1.75 * parseFloat(getComputedStyle(document.documentElement).fontSize);

  // Takes the containers whose names have the text.
  function filterLanes() {
    const text = byId("lane-text").value.trim().toLowerCase();
    lanes.shown = trace.lanes.filter((lane) => lane.name.toLowerCase().includes(text));
    showLanes();
  }

  // Shows the steps from one to another, both kept within the trace and apart.
  function view(first, last) {
    const span = Math.max(4, Math.min(last - first, trace.count + 1));
    lanes.first = Math.max(0, Math.min(first, trace.count + 1 - span));
    lanes.last = lanes.first + span;
    byId("lane-range").textContent = `steps ${Math.max(1, Math.ceil(lanes.first))} to ${Math.min(trace.count, Math.floor(lanes.last))}`;
    showLanes();
  }

  // Moves by a part of what is shown.
  const pan = (part) => view(lanes.first + part * (lanes.last - lanes.first), lanes.last + part * (lanes.last - lanes.first));

  // Shows more or fewer steps around the same middle.
  function zoom(factor) {
    const middle = (lanes.first + lanes.last) / 2, half = (lanes.last - lanes.first) * factor / 2;
    view(middle - half, middle + half);
  }

  // Draws the lanes that are seen, or for paper so many from the first.
  function showLanes(printed = 0) {
    const area = byId("lane-scroll"), height = laneHeight();
    const first = printed ? 0 : Math.max(0, Math.floor(area.scrollTop / height) - 2);
    const last = Math.min(lanes.shown.length, printed || Math.ceil((area.scrollTop + (area.clientHeight || 400)) / height) + 2);
    const inner = make("div", {});
    inner.style.height = `${(printed ? last : Math.max(1, lanes.shown.length)) * height}px`;
    for (let place = first; place < last; place++) inner.append(laneRow(lanes.shown[place], place * height));
    if (lanes.shown.length === 0) inner.append("no container has this name");
    area.replaceChildren(inner);
  }

  // One lane: its name, and what it holds.
  function laneRow(lane, top) {
    const width = Math.max(200, byId("lane-scroll").clientWidth - (byId("lane-scroll").clientWidth < 640 ? 112 : 224));
    const picture = draw("svg", {width, height: 26, viewBox: `0 0 ${width} 26`, "aria-hidden": "true"}, ...spans(lane, width), ...notes(lane, width));
    const title = `${lane.name} (${lane.kind}, number ${lane.number})`;
    const row = make("div", {class: "lane"}, make("div", {class: "lane-name", title}, named(lane.name)), picture);
    row.style.top = `${top}px`;
    return row;
  }

  // Where a step is in a lane.
  const laneX = (step, width) => Math.max(0, Math.min(width, (step - lanes.first) / (lanes.last - lanes.first) * width));

  // What a lane holds, span by span. Changes that fall on one dot are drawn as one.
  function spans(lane, width) {
    const drawn = [], end = Math.min(lane.last, trace.count + 1);
    for (let place = Math.max(0, countUpTo(lane.steps, lanes.first) - 1); place < lane.steps.length; ) {
      const from = lane.steps[place], x = laneX(from, width);
      let next = place + 1;
      while (next < lane.steps.length && laneX(lane.steps[next], width) < x + 1.5 && lane.steps[next] < lanes.last) next++;
      const until = next < lane.steps.length ? lane.steps[next] : end;
      if (from > lanes.last) break;
      if (until > lanes.first) drawn.push(span(lane, next - 1, place, from, until, x, laneX(until, width)));
      place = next;
    }
    return drawn;
  }

  // What a lane holds from one step until another; `place` to `tag` are the changes that are drawn as this one.
  function span(lane, tag, place, from, until, x, right) {
    const words = trace.tagWords[lane.tags[tag]], held = lane.tags[tag];
    const more = tag > place ? `; ${plural(tag - place, "change")} before` : "";
    const colour = trace.tags[held] === "0000000000000000" ? 0 : 1 + held % 7;
    const indent = lane.alerts.includes(from) ? 11 : 4, letters = Math.floor((right - x - indent - 4) / 6.6);
    const group = draw("g", {}, draw("title", {}, `${lane.name}, steps ${from} to ${until - 1}: ${words}${more}`),
      draw("rect", {class: `span tag${colour}`, x, y: 3, width: Math.max(1, right - x), height: 20}));
    if (letters >= 3) group.append(draw("text", {x: x + indent, y: 17}, shortened(words, letters)));
    return group;
  }

  // The alerts and the blocked accesses of a lane; of those on one dot one is drawn.
  function notes(lane, width) {
    const drawn = [];
    for (const [steps, mark, word] of [[lane.alerts, MARKS.alert, "alert"], [lane.blocked, MARKS.blocked, "blocked"]]) {
      let before = -Infinity;
      for (let place = countUpTo(steps, lanes.first - 1); place < steps.length && steps[place] <= lanes.last; place++) {
        const x = laneX(steps[place], width);
        if (x < before + 4) continue;
        before = x;
        drawn.push(draw("text", {class: "note", x, y: 17}, draw("title", {}, `${word}, step ${steps[place]}`), mark));
      }
    }
    return drawn;
  }

  // The keys that move and zoom the lanes.
  function onLaneKey(event) {
    const moves = {ArrowLeft: () => pan(-0.25), ArrowRight: () => pan(0.25), "+": () => zoom(0.5), "=": () => zoom(0.5), "-": () => zoom(2)};
    if (!moves[event.key] || event.ctrlKey || event.metaKey || event.altKey) return;
    event.preventDefault();
    moves[event.key]();
  }

  // The table of what each container holds behind a step.
  function showState() {
    const step = Math.max(0, Math.min(trace.count, Math.floor(Number(byId("state-step").value) || 0)));
    const there = trace.lanes.filter((lane) => lane.step <= step && step < lane.last);
    const rows = there.map((lane) => {
      const place = countUpTo(lane.steps, step) - 1;
      return make("tr", {}, make("th", {scope: "row"}, named(lane.name)), make("td", {}, lane.kind),
        make("td", {}, named(trace.tagWords[lane.tags[place]])), make("td", {class: "number"}, String(lane.steps[place])));
    });
    byId("state-caption").textContent = `Behind step ${step}: ${plural(there.length, "container")}`;
    byId("state-rows").replaceChildren(...rows);
  }

  // ---- Figures.

  // Bars beside each other, each with its count above and its name below.
  function bars(title, counts) {
    const width = Math.max(260, 44 * counts.length + 20), height = 190, most = Math.max(1, ...counts.map(([, count]) => count));
    const words = counts.map(([name, count]) => `${name}: ${count}`).join(", ");
    const picture = draw("svg", {role: "img", "aria-label": `${title}. ${words}`, viewBox: `0 0 ${width} ${height}`, width, height},
      draw("line", {class: "axis", x1: 0, x2: width, y1: 150, y2: 150}));
    counts.forEach(([name, count], place) => {
      const x = 10 + 44 * place, tall = Math.round(120 * count / most);
      picture.append(draw("g", {}, draw("title", {}, `${name}: ${count}`),
        draw("rect", {class: "bar", x: x + 6, y: 150 - tall, width: 32, height: tall}),
        draw("text", {class: "count", x: x + 22, y: 144 - tall}, String(count)),
        draw("text", {class: "label", x: x + 22, y: 168}, shortened(name, 7))));
    });
    return make("figure", {}, make("figcaption", {}, title), picture);
  }

  // Bars below each other, each with its name before and its count behind.
  function lyingBars(title, counts) {
    const width = 520, height = 26 * counts.length + 8, most = Math.max(1, ...counts.map(([, count]) => count));
    const words = counts.map(([name, count]) => `${name}: ${count}`).join(", ");
    const picture = draw("svg", {role: "img", "aria-label": `${title}. ${words}`, viewBox: `0 0 ${width} ${height}`, width, height});
    counts.forEach(([name, count], place) => {
      const y = 4 + 26 * place, long = Math.max(1, 270 * count / most);
      picture.append(draw("g", {}, draw("title", {}, `${name}: ${count}`), draw("text", {class: "left", x: 180, y: y + 16}, shortened(name, 24)),
        draw("rect", {class: "bar", x: 188, y, width: long, height: 20}), draw("text", {x: 196 + long, y: y + 15}, String(count))));
    });
    return make("figure", {}, make("figcaption", {}, title), picture);
  }

  // The alerts of a thousand accepted steps, with the numbers that they are made of.
  function rate({alerts, accepted}) {
    if (accepted === 0) return "none";
    return `${Math.floor(1000 * alerts / accepted)} ${1000 * alerts % accepted}/${accepted} (${alerts} of ${accepted})`;
  }

  // The alerts by container: of one trace each container by itself, of several by number, whoever held it.
  function byContainer(figures) {
    if (data.traces.length === 1 && trace) return trace.lanes.filter((lane) => lane.alerts.length).map((lane) => [lane.name, lane.alerts.length]);
    return Object.entries(figures.containers).map(([number, count]) => [data.policy.containers[number]?.name ?? `number ${number}`, count]);
  }

  // The alerts of the one trace, by equal parts of its steps.
  function parts() {
    const size = Math.max(1, Math.ceil(trace.count / 16)), counts = [];
    for (let first = 0; first < trace.count; first += size) {
      const last = Math.min(trace.count, first + size);
      let count = 0;
      for (let place = first; place < last; place++) count += trace.columns.answer[place] === ALERT ? 1 : 0;
      counts.push([String(first + 1), count]);
    }
    return [`Alerts by steps: ${plural(size, "step")} from each number on`, counts];
  }

  // Shows the charts and the table of figures.
  function showFigures() {
    const counted = data.traces.filter((one) => one.figures), months = data.traces.length > 1;
    const charts = byId("charts");
    if (months) charts.append(bars("Alerts by trace", counted.map((one) => [one.name, one.figures.alerts])));
    else if (trace && trace.count) charts.append(bars(...parts()));
    if (data.total.alerts) charts.append(lyingBars("Alerts by container", byContainer(data.total)));
    const line = (name, figures) => [name, figures.accepted, figures.alerts, figures.refused, figures.blocked, rate(figures),
      byContainer(figures).map(([container, count]) => `${container} ${count}`).join(", ") || "none"];
    const rows = data.traces.map((one) => (one.figures ? line(one.name, one.figures) : [one.name, "left out", "", "", "", "", ""]));
    if (months) rows.push(line("total", data.total));
    const heads = ["Trace", "Accepted", "Alerts", "Refused", "Blocked", "Rate of a thousand", "Alerts by container"];
    const made = table("Figures of each trace, each run in a new session", heads, rows);
    byId("figures-table").replaceChildren(...made.childNodes);
  }

  // ---- The policy.

  // What a rule is called.
  const ruleName = (rule) => (rule === null ? "everything" : `rule ${rule}`);
  // A mixture in words.
  const mixtureWords = (digits) => (digits === "f".repeat(16) ? "everything" : `{${sourcesOf(digits).join(", ")}}`);

  // Who has a rule: name, which rule of it this is, and the rule.
  function placesOfRules() {
    const {containers, users} = data.policy;
    const places = containers.flatMap(({name, permit, run}) => [[name, "permit", permit], [name, "run", run]]);
    return [...places, ...users.map(({name, rule}) => [`user ${name}`, "user", rule])].filter(([, , rule]) => rule !== null);
  }

  // Shows the policy: as a graph if it is small, and as tables.
  function showPolicy() {
    const {rules} = data.policy, places = placesOfRules();
    const names = [...new Set(places.map(([name]) => name))];
    const mixtures = rules.flatMap((rule, number) => rule.mixtures.map((digits) => ({number, digits})));
    const atoms = [...new Set(mixtures.flatMap(({digits}) => atomsOf(digits)))].sort((one, other) => one - other);
    const fits = names.length <= GRAPH.places && mixtures.length <= GRAPH.mixtures && atoms.length <= GRAPH.atoms;
    const limits = `at most ${GRAPH.places} places with a rule, ${GRAPH.mixtures} mixtures and ${GRAPH.atoms} sources in them`;
    if (places.length === 0) byId("graph").append(make("p", {}, "No container and no user has a rule: each may hold everything."));
    else if (fits) byId("graph").append(policyPicture(names, places, rules, mixtures, atoms));
    else byId("graph").append(make("p", {}, `The policy is shown as tables alone: a graph is drawn for ${limits}.`));
    showPolicyTables();
  }

  // Shows the containers, rules and users of the policy as tables.
  function showPolicyTables() {
    const {containers, rules, users, sources} = data.policy, area = byId("policy-tables");
    const heads = ["Number", "Name", "Kind", "Its source", "May hold (permit rule)", "Who runs it may hold (run rule)"];
    area.append(table("Containers", heads, containers.map((one, number) =>
      [number, one.name, one.kind, one.source === null ? "none" : sources[one.source], ruleName(one.permit), ruleName(one.run)])));
    const mixtures = (rule) => rule.mixtures.map(mixtureWords).join(" or ") || "no mixture: nothing at all";
    const owner = (rule) => (rule.owner === null ? "nobody" : users[rule.owner].name);
    area.append(table("Rules: what is held must be within one mixture", ["Rule", "Mixtures", "Set by"],
      rules.map((rule, number) => [ruleName(number), mixtures(rule), owner(rule)])));
    if (users.length)
      area.append(table("Users", ["Number", "Name", "Rule"], users.map(({name, rule}, number) => [number, name, ruleName(rule)])));
  }

  // The heights of a column's boxes, spread over the height of the picture.
  const spread = (count, height, place) => 30 + (height - 40) * (place + 0.5) / Math.max(1, count);

  // The graph: who has a rule at the left, the rules with their mixtures, the sources in these at the right.
  function policyPicture(names, places, rules, mixtures, atoms) {
    const height = 34 * Math.max(names.length, rules.length + mixtures.length, atoms.length) + 50, width = 1080;
    const words = "Who may hold what: containers and users, their rules with mixtures, and the sources in these. The tables below have the same.";
    const picture = draw("svg", {role: "img", "aria-label": words, viewBox: `0 0 ${width} ${height}`, width, height});
    const heads = [[10, "containers and users"], [400, "rules and their mixtures"], [860, "sources"]];
    picture.append(...heads.map(([x, text]) => draw("text", {x, y: 16}, text)));
    const nameY = (name) => spread(names.length, height, names.indexOf(name)), atomY = (atom) => spread(atoms.length, height, atoms.indexOf(atom));
    const slots = rules.flatMap((_, number) => [{number}, ...mixtures.filter((mixture) => mixture.number === number)]);
    const slotY = (slot) => spread(slots.length, height, slots.indexOf(slot));
    for (const [name, kind, rule] of places) {
      const y = slotY(slots.find((slot) => slot.number === rule));
      picture.append(edge(`${name}, ${kind} rule: rule ${rule}`, `edge ${kind}`, 240, nameY(name), 390, y));
    }
    for (const slot of slots.filter(({digits}) => digits))
      for (const atom of atomsOf(slot.digits)) {
        const title = `rule ${slot.number} permits ${data.policy.sources[atom]} in ${mixtureWords(slot.digits)}`;
        picture.append(edge(title, "edge", 720, slotY(slot), 850, atomY(atom)));
      }
    const slotBox = (slot) => (slot.digits ? box(mixtureWords(slot.digits), 410, slotY(slot), 310, 42) : box(`rule ${slot.number}`, 390, slotY(slot), 110, 14));
    picture.append(...names.map((name) => box(name, 10, nameY(name), 230, 30)), ...slots.map(slotBox),
      ...atoms.map((atom) => box(data.policy.sources[atom], 850, atomY(atom), 220, 29)));
    const legend = "Solid lines: permit rule, and the sources of a mixture. Dashed: run rule. Dotted: rule of a user.";
    return make("figure", {}, make("figcaption", {}, legend), picture);
  }

  // A line of the graph.
  const edge = (title, kind, x1, y1, x2, y2) =>
    draw("path", {class: kind, d: `M${x1} ${y1}C${x1 + 60} ${y1} ${x2 - 60} ${y2} ${x2} ${y2}`}, draw("title", {}, title));

  // A box of the graph.
  const box = (name, x, y, width, letters) => draw("g", {}, draw("title", {}, name),
    draw("rect", {class: "box", x, y: y - 13, width, height: 26, rx: 4}),
    draw("text", {x: x + 8, y: y + 5}, shortened(name, letters)));

  // ---- The frame: header, inputs, choices, print.

  // Shows the counts, what is left out, what the page was made of, and the heads of the list.
  function showHead() {
    const {records, alerts, blocked, refused} = data.total;
    byId("summary").textContent = `${plural(records, "record")} of ${plural(data.traces.length, "trace")}: ${plural(alerts, "alert")}, `
      + `${blocked.toLocaleString("en")} blocked, ${refused.toLocaleString("en")} refused.`;
    byId("gaps").append(...data.gaps.map((gap) => make("li", {class: "blocked"}, `Not followed: ${gap}`)),
      ...data.notes.map((note) => make("li", {}, `Note: ${note}`)));
    byId("version").textContent = `Made by yaslaurel report ${data.version} with the library of that edition.`;
    const file = (name, size, digest) => make("tr", {}, make("th", {scope: "row"}, name), make("td", {}, size),
      make("td", {}, make("code", {}, digest || "not read whole")));
    byId("inputs-rows").append(file("policy.bin", plural(data.policy.bytes, "byte"), data.policy.sha256),
      ...data.traces.map((one) => file(one.name, one.figures ? plural(one.figures.records, "record") : "left out", one.sha256)));
    for (const [key, {title}] of Object.entries(COLUMNS)) {
      const button = make("button", {type: "button"}, title);
      button.addEventListener("click", () => {
        list.down = list.key === key && !list.down;
        list.key = key;
        sort();
      });
      byId("list-head").append(make("th", {scope: "col", id: `head-${key}`, "aria-sort": "none"}, button));
    }
  }

  // The options of a choice.
  const options = (first, pairs) => [make("option", {value: ""}, first), ...pairs.map(([value, text]) => make("option", {value}, text))];

  // The containers to choose from: all, or where these are too many those of the policy and those with an alert or a blocked access.
  function offeredContainers() {
    const few = trace.lanes.length <= OFFERED;
    const offered = few ? trace.lanes : trace.lanes.filter((lane) => lane.step === 0 || lane.alerts.length || lane.blocked.length).slice(0, OFFERED);
    const pairs = offered.map((lane) => [lane.place, `${shortened(lane.name, 60)} (${lane.number})`]);
    const all = options("any", pairs);
    if (!few) all.push(make("option", {disabled: ""}, `${plural(trace.lanes.length - offered.length, "other")}: by the text`));
    return all;
  }

  // Shows a trace: its choices, its list, its lanes.
  function openTrace(place) {
    trace = new Trace(data.traces[place]);
    const used = [...new Set(trace.tags.flatMap(atomsOf))].sort((one, other) => one - other);
    byId("filter-container").replaceChildren(...offeredContainers());
    byId("filter-source").replaceChildren(...options("any", used.map((atom) => [atom, shortened(data.policy.sources[atom], 60)])));
    byId("state-step").max = trace.count;
    byId("state-step").value = trace.count;
    const nothing = trace.columns.answer.every((answer) => answer === 0);
    document.querySelector("[name=answer][value=quiet]").checked = nothing;
    Object.assign(list, {chosen: -1, key: "step", down: false});
    filter();
    byId("details-heading").textContent = "Details";
    byId("details-body").replaceChildren(make("p", {}, list.rows.length ? "" : "No record is chosen."));
    if (list.rows.length) choose(0);
    lanes.shown = trace.lanes;
    byId("lane-text").value = "";
    view(0, trace.count + 1);
    showState();
  }

  // On paper all rows that the filters let through are there, with the explanations, each up to a limit that is told.
  function prepareForPaper() {
    if (!trace || byId("print").childNodes.length) return;
    const cells = (place) => [place + 1, trace.answer(place), trace.access(place), trace.receiver(place), trace.outcome(place)];
    const rows = list.rows.slice(0, PRINTED_ROWS).map(cells);
    const told = list.rows.filter((place) => trace.explanations.has(place + 1)), printed = told.slice(0, PRINTED_DETAILS);
    const left = list.rows.length - rows.length, unexplained = told.length - printed.length;
    byId("print").append(table("Records and their answers", Object.values(COLUMNS).map(({title}) => title), rows));
    if (left) byId("print").append(make("p", {}, `${plural(left, "row")} more are not printed.`));
    byId("print").append(...printed.flatMap((place) => [make("h3", {}, `Step ${place + 1}`), details(place)]));
    if (unexplained) byId("print").append(make("p", {}, `${plural(unexplained, "explanation")} more are not printed.`));
    showLanes(PRINTED_LANES);
  }

  // Takes away what is for paper alone.
  function afterPaper() {
    byId("print").replaceChildren();
    if (trace) showLanes();
  }

  // What is done when something is pressed, written or scrolled.
  function listen() {
    const on = (id, name, action) => byId(id).addEventListener(name, action);
    on("filters", "submit", (event) => event.preventDefault());
    on("filters", "input", filter);
    on("filters", "reset", () => setTimeout(filter));
    on("list", "scroll", () => requestAnimationFrame(showRows));
    on("list", "keydown", onListKey);
    on("lane-text", "input", filterLanes);
    on("lane-scroll", "scroll", () => requestAnimationFrame(() => showLanes()));
    on("lane-scroll", "keydown", onLaneKey);
    on("lane-earlier", "click", () => pan(-0.5));
    on("lane-later", "click", () => pan(0.5));
    on("lane-closer", "click", () => zoom(0.5));
    on("lane-wider", "click", () => zoom(2));
    on("lane-all", "click", () => view(0, trace.count + 1));
    on("state-step", "input", showState);
    on("trace", "change", () => openTrace(Number(byId("trace").value)));
    addEventListener("resize", () => showLanes());
    addEventListener("beforeprint", prepareForPaper);
    addEventListener("afterprint", afterPaper);
    matchMedia("print").addEventListener("change", (event) => (event.matches ? prepareForPaper() : afterPaper()));
  }

  // ---- The start.

  showHead();
  const listed = data.traces.flatMap((one, place) => (one.replay ? [[place, one.name]] : []));
  byId("trace-choice").hidden = data.traces.length < 2;
  byId("trace").append(...listed.map(([value, text]) => make("option", {value}, text)));
  if (listed.length) {
    openTrace(listed[0][0]);
    listen();
  } else for (const id of ["answers", "lanes"]) byId(id).hidden = true;
  showFigures();
  showPolicy();
})();
