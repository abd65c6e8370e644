"use strict";
(() => {
  const data = JSON.parse(document.getElementById("data").textContent);
  const at = (id) => document.getElementById(id);

  // Fills an element of the page or of a drawing with attributes, and with texts or elements.
  const filled = (element, attributes = {}, ...inside) => {
    for (const [key, value] of Object.entries(attributes)) element.setAttribute(key, value);
    element.append(...inside);
    return element;
  };
  const make = (name, ...rest) => filled(document.createElement(name), ...rest);
  const draw = (name, ...rest) => filled(document.createElementNS("http://www.w3.org/2000/svg", name), ...rest);

  // -- Times, in milliseconds from the first bit.
  const two = (number) => String(number).padStart(2, "0");
  const timeText = (time, tenths = false, day = false) => {
    if (data.begin === null) {
      const units = Math.floor(time / 100);
      const text = `${Math.floor(units / 36000)}:${two(Math.floor(units / 600) % 60)}:${two(Math.floor(units / 10) % 60)}`;
      return tenths ? `${text}.${units % 10}` : text;
    }
    const clock = new Date(data.begin + time);
    const text = clock.toISOString();
    return (day ? text.slice(0, 10) + " " : "") + text.slice(11, tenths ? 21 : 19);
  };
  const tickText = (time, step) => {
    if (data.begin !== null && step >= 86400000) return new Date(data.begin + time).toISOString().slice(5, 10);
    const text = timeText(time);
    return data.begin !== null && step >= 60000 ? text.slice(0, 5) : text;
  };
  const isLong = data.begin !== null && new Date(data.begin).getUTCDate() !== new Date(data.begin + data.length).getUTCDate();

  // -- Calls.
  const [LATE, OPEN, ALARM, PIECE] = [1, 2, 4, 8];
  const calls = data.calls.map(([begin, length, network, talker, to, alg, marks, sent, heard, broken, wrong, looked]) => ({
    begin, length, network: data.networks[network], sent, heard, broken, lost: sent - heard,
    rate: looked ? (100 * wrong) / looked : null,
    from: data.talkers[talker],
    to: data.called[to][0],
    lane: data.called[to][1],
    cipher: alg < 0 ? "not known" : data.ciphers[alg],
    alarm: (marks & ALARM) !== 0,
    kind: marks & ALARM ? "alarm" : alg < 0 ? "unknown" : data.clear.includes(alg) ? "clear" : "secret",
    notes: [marks & LATE && "beginning not heard", marks & OPEN && "end not heard", marks & PIECE && "may go on the call before"].filter(Boolean).join("; "),
  }));
  const secondsText = (time) => `${(time / 1000).toFixed(1)} s`;
  const callText = (call) =>
    `${timeText(call.begin, true)}, for ${secondsText(call.length)}: ${call.from} to ${call.to}` +
    `${call.alarm ? ", EMERGENCY" : ""}, ${call.cipher}; ${call.heard} of ${call.sent} voice units heard`;

  // -- Tables, sorted and filtered. The element of a row is made when it is shown.
  class Table {
    constructor(table, name, rows, most) {
      this.table = table;
      this.rows = rows;
      this.most = this.step = most;
      this.column = -1;
      this.down = false;
      this.keep = () => true;
      this.body = table.tBodies[0];
      const id = `filter-${name.toLowerCase().replace(/[^a-z]+/g, "-")}`;
      this.filter = make("input", { type: "search", id, autocomplete: "off", spellcheck: "false" });
      this.told = make("span", { role: "status" });
      this.tools = make("div", { class: "tools" }, make("label", { for: id }, "Filter"), this.filter, this.told);
      this.more = make("div", { class: "tools" });
      const region = table.closest(".scroll");
      region.before(this.tools);
      region.after(this.more);
      this.tools.hidden = rows.length < 2;
      this.filter.addEventListener("input", () => { this.most = this.step; this.show(); });
      this.heads = [...table.tHead.rows[0].cells];
      this.heads.forEach((head, column) => {
        const button = make("button", { type: "button" }, head.textContent);
        head.replaceChildren(button);
        button.addEventListener("click", () => this.sort(column));
      });
      this.show();
    }
    sort(column) {
      // A number is first sorted downwards, and a text upwards.
      const first = this.heads[column].classList.contains("n") && column > 0; // a number in the first column names the row
      this.down = this.column === column ? !this.down : first;
      this.column = column;
      this.heads.forEach((head, other) => {
        if (other === column) head.setAttribute("aria-sort", this.down ? "descending" : "ascending");
        else head.removeAttribute("aria-sort");
      });
      this.show();
    }
    chosen() {
      const words = this.filter.value.toLowerCase().split(/\s+/).filter(Boolean);
      const rows = this.rows.filter((row) => this.keep(row) && words.every((word) => row.text.includes(word)));
      if (this.column < 0) return rows;
      const order = (one, other) => {
        const [a, b] = [one.values[this.column], other.values[this.column]];
        return typeof a === "number" && typeof b === "number" ? a - b : String(a).localeCompare(String(b), "en", { numeric: true });
      };
      const sign = this.down ? -1 : 1;
      return rows.map((row, place) => [row, place]).sort(([a, i], [b, j]) => sign * order(a, b) || i - j).map(([row]) => row);
    }
    show() {
      const rows = this.chosen();
      this.body.replaceChildren(...rows.slice(0, this.most).map((row) => (row.element ||= row.make())));
      const all = this.rows.length.toLocaleString("en") + (this.rows.length === 1 ? " row" : " rows");
      this.told.textContent = rows.length === this.rows.length ? all : `${rows.length.toLocaleString("en")} of ${all}`;
      this.more.replaceChildren();
      if (rows.length > this.most) {
        const more = make("button", { type: "button" }, `Show ${Math.min(this.step, rows.length - this.most)} more`);
        more.addEventListener("click", () => { this.most += this.step; this.show(); });
        this.more.append(`${this.most.toLocaleString("en")} of ${rows.length.toLocaleString("en")} are shown.`, more);
      }
    }
  }

  const tables = [];
  for (const table of document.querySelectorAll("table[data-name]")) {
    const rows = [...table.tBodies[0].rows].map((element) => {
      const cells = [...element.cells];
      return {
        element,
        text: element.textContent.toLowerCase() + " " + cells.map((cell) => cell.textContent.toLowerCase()).join(" "),
        values: cells.map((cell) => ("v" in cell.dataset ? Number(cell.dataset.v) : cell.textContent)),
      };
    });
    tables.push(new Table(table, table.dataset.name, rows, 1000));
  }

  // -- The table of calls.
  const columns = [
    ["From", ""], ["To", ""], ["Began", "t"], ["Length", "n"], ["Network", ""], ["Encryption", ""],
    ["Heard", "n"], ["Lost", "n"], ["Broken", "n"], ["Bit errors", "n"], ["Notes", ""],
  ];
  const rowOf = (call) => {
    const texts = [
      call.from, call.to, timeText(call.begin, true, isLong), secondsText(call.length), call.network, call.cipher,
      `${call.heard} of ${call.sent}`, String(call.lost), String(call.broken), call.rate === null ? "-" : `${call.rate.toFixed(2)} %`, call.notes,
    ];
    return {
      call,
      text: [...texts, call.alarm ? "emergency" : ""].join(" ").toLowerCase(),
      values: [(call.alarm ? "0" : "1") + call.from, call.to, call.begin, call.length, call.network, call.cipher, call.heard, call.lost, call.broken, call.rate ?? -1,
        call.notes],
      make: () => {
        const row = make("tr", call.alarm ? { class: "alarm" } : {});
        texts.forEach((text, column) => {
          const isFault = (column === 7 && call.lost > 0) || (column === 8 && call.broken > 0);
          const kind = columns[column][1] + (isFault ? " fault" : "");
          row.append(make("td", kind ? { class: kind } : {}, text));
        });
        // A phone shows the first columns.
        if (call.alarm) row.firstChild.prepend(make("span", { class: "badge" }, "EMERGENCY"), " ");
        return row;
      },
    };
  };
  let view = [0, Math.max(data.length, 1000)];
  const whole = view;
  let callTable = null;
  if (calls.length) {
    const head = make("tr");
    for (const [name, kind] of columns) head.append(make("th", kind ? { scope: "col", class: kind } : { scope: "col" }, name));
    const table = make("table", {}, make("thead", {}, head), make("tbody"));
    at("calls-table").append(make("div", { class: "scroll", role: "region", tabindex: "0", "aria-labelledby": "calls-title" }, table));
    callTable = new Table(table, "calls", calls.map(rowOf), 100);
    const follow = make("input", { type: "checkbox", id: "follow", checked: "" });
    callTable.tools.append(make("label", { class: "check", for: "follow" }, follow, "only the time shown above"));
    callTable.keep = (row) => !follow.checked || (row.call.begin < view[1] && row.call.begin + row.call.length > view[0]);
    follow.addEventListener("change", () => callTable.show());
    tables.push(callTable);
  } else {
    at("calls-table").append(make("p", { class: "none" }, "There is no call."));
  }

  // -- The chart.
  const MOST_LANES = 24;
  const counts = new Map();
  for (const call of calls) counts.set(call.lane, (counts.get(call.lane) || 0) + call.length);
  const byLength = [...counts.keys()].sort((a, b) => counts.get(b) - counts.get(a));
  const lanes = byLength.length <= MOST_LANES ? byLength : [...byLength.slice(0, MOST_LANES - 1), "others"];
  const laneOf = new Map(byLength.map((name) => [name, Math.max(0, lanes.includes(name) ? lanes.indexOf(name) : lanes.length - 1)]));
  const STEPS = [1, 2, 5, 10, 15, 30, 60, 120, 300, 600, 900, 1800, 3600, 7200, 10800, 21600, 43200, 86400, 172800, 604800].map((s) => s * 1000);
  const NICE = [1, 2, 5, 10, 20, 50, 100];
  const short = (text, room) => (text.length <= room ? text : text.slice(0, Math.max(1, room - 1)) + "…");

  const chart = (asked) => {
    const width = asked || Math.max(280, at("chart").clientWidth);
    const left = Math.min(190, Math.floor(width * 0.29));
    const right = width - 8;
    const [from, to] = view;
    const x = (time) => left + ((time - from) / (to - from)) * (right - left);
    const laneHeight = 22;
    const top = 8;
    const rateTop = top + lanes.length * laneHeight + 26, rateHeight = 84;
    const lossTop = rateTop + rateHeight + 30, lossHeight = 60;
    const bottom = lossTop + lossHeight;
    const height = bottom + 24;
    const label = `Calls from ${timeText(from)} to ${timeText(to)}, in ${lanes.length} lines. The table of calls has the same in words.`;
    const svg = draw("svg", { viewBox: `0 0 ${width} ${height}`, height, role: "img", tabindex: 0, "aria-label": label });
    const hatch = { id: "hatch", width: 6, height: 6, patternUnits: "userSpaceOnUse", patternTransform: "rotate(45)" };
    svg.append(draw("defs", {}, draw("pattern", hatch, draw("rect", { width: 6, height: 6 }), draw("path", { d: "M1.5 0V6" })),
      draw("clipPath", { id: "inside" }, draw("rect", { x: left, y: 0, width: right - left, height }))));

    lanes.forEach((name, lane) => {
      const y = top + lane * laneHeight;
      svg.append(draw("rect", { class: "lane", x: left, y: y + 1, width: right - left, height: laneHeight - 2 }));
      const text = short(name, Math.floor((left - 10) / 7.2));
      svg.append(draw("text", { class: "name", x: left - 8, y: y + 15, "text-anchor": "end" }, text, draw("title", {}, name)));
    });

    const step = STEPS.find((each) => ((right - left) * each) / (to - from) >= 74) || STEPS[STEPS.length - 1];
    // Ticks are at whole steps of the clock.
    const zero = data.begin === null ? 0 : (step - (data.begin % step)) % step;
    for (let time = zero + Math.ceil((from - zero) / step) * step; time <= to; time += step) {
      const place = x(time);
      svg.append(draw("line", { class: "grid", x1: place, x2: place, y1: top, y2: bottom }));
      if (place > left + 20 && place < right - 20) svg.append(draw("text", { class: "tick", x: place, y: bottom + 16, "text-anchor": "middle" }, tickText(time, step)));
    }

    // Bars that would overlap are one; emergencies are drawn last.
    const bars = draw("g", { "clip-path": "url(#inside)" });
    const last = new Map();
    const drawn = [];
    for (const call of calls) {
      if (call.begin > to || call.begin + call.length < from) continue;
      const lane = laneOf.get(call.lane);
      const begin = x(call.begin), end = Math.max(x(call.begin + call.length), x(call.begin) + 2);
      const key = `${lane} ${call.kind}`;
      const before = last.get(key);
      if (before && begin - before.end < 0.6 && before.end - before.begin < 40) {
        before.end = Math.max(before.end, end);
        before.calls.push(call);
        continue;
      }
      const bar = { lane, begin, end, kind: call.kind, calls: [call] };
      last.set(key, bar);
      drawn.push(bar);
    }
    drawn.sort((a, b) => (a.kind === "alarm") - (b.kind === "alarm"));
    for (const bar of drawn) {
      const inset = bar.kind === "alarm" ? 1 : 4;
      const text = bar.calls.length === 1 ? callText(bar.calls[0]) : `${bar.calls.length} calls from ${timeText(bar.calls[0].begin)} on`;
      const box = { x: bar.begin, y: top + bar.lane * laneHeight + inset, width: bar.end - bar.begin, height: laneHeight - 2 * inset };
      const rect = draw("rect", { class: `bar ${bar.kind}`, ...box }, draw("title", {}, text));
      rect.addEventListener("click", () => { at("picked").textContent = text; });
      bars.append(rect);
    }
    svg.append(bars);

    // Several slices make a column if there are many.
    const size = data.width * 1000;
    const many = Math.max(1, Math.ceil((3 * (to - from)) / size / (right - left)));
    const columnsOf = new Map();
    for (const [slot, looked, wrong, inCalls, missing] of data.slices) {
      if ((slot + 1) * size < from || slot * size > to) continue;
      const key = Math.floor(slot / many);
      const sum = columnsOf.get(key) || [0, 0, 0, 0];
      [looked, wrong, inCalls, missing].forEach((count, i) => { sum[i] += count; });
      columnsOf.set(key, sum);
    }
    const plot = (name, y, high, kind, share) => {
      const values = [...columnsOf].map(([key, sum]) => [key, share(sum)]).filter(([, value]) => value !== null);
      const most = values.reduce((high, [, value]) => Math.max(high, value), 0);
      const full = NICE.find((each) => each >= most) || 100;
      svg.append(draw("text", { class: "name", x: left, y: y - 7 }, name));
      for (const mark of [0, full / 2, full]) {
        const place = y + high - (high * mark) / full;
        svg.append(draw("line", { class: "grid", x1: left, x2: right, y1: place, y2: place }));
        svg.append(draw("text", { class: "tick", x: left - 8, y: place + 4, "text-anchor": "end" }, `${mark} %`));
      }
      const group = draw("g", { "clip-path": "url(#inside)" });
      for (const [key, value] of values) {
        const begin = x(key * many * size), tall = (high * Math.min(value, full)) / full;
        const wide = Math.max(1, x((key + 1) * many * size) - begin - 0.5);
        const title = draw("title", {}, `${timeText(key * many * size)}: ${value.toFixed(2)} %`);
        group.append(draw("rect", { class: kind, x: begin, y: y + high - tall, width: wide, height: tall }, title));
      }
      svg.append(group);
      if (!values.length) svg.append(draw("text", { class: "tick", x: (left + right) / 2, y: y + high / 2, "text-anchor": "middle" }, "no call"));
    };
    const narrow = right - left < 420;
    plot(narrow ? "Bit errors" : "Bit errors, of the bits checked in whole units", rateTop, rateHeight, "rate", ([looked, wrong]) => (looked ? (100 * wrong) / looked : null));
    plot(narrow ? "Broken or lost" : "Broken or lost, of the time within calls", lossTop, lossHeight, "loss", ([, , inCalls, missing]) => (inCalls ? (100 * missing) / inCalls : null));

    // The part that the pointer is dragged over is shown larger.
    const place = (event) => {
      const box = svg.getBoundingClientRect();
      return Math.min(right, Math.max(left, ((event.clientX - box.left) * width) / box.width));
    };
    let begun = null;
    const drag = draw("rect", { class: "drag", y: top, height: bottom - top, width: 0, x: 0 });
    svg.append(drag);
    svg.addEventListener("pointerdown", (event) => { begun = place(event); });
    svg.addEventListener("pointermove", (event) => {
      if (begun === null) return;
      drag.setAttribute("x", Math.min(begun, place(event)));
      drag.setAttribute("width", Math.abs(place(event) - begun));
    });
    svg.addEventListener("pointerup", (event) => {
      if (begun === null) return;
      const [one, other] = [Math.min(begun, place(event)), Math.max(begun, place(event))];
      begun = null;
      drag.setAttribute("width", 0);
      const time = (where) => from + ((where - left) / (right - left)) * (to - from);
      if (other - one > 8) look(time(one), time(other));
    });
    for (const name of ["pointercancel", "pointerleave"]) svg.addEventListener(name, () => { begun = null; drag.setAttribute("width", 0); });
    svg.addEventListener("keydown", (event) => {
      const action = { ArrowLeft: "earlier", ArrowRight: "later", "+": "in", "=": "in", "-": "out", 0: "all" }[event.key];
      if (!action) return;
      event.preventDefault();
      turn(action);
      at("chart").firstChild.focus();
    });
    at("chart").replaceChildren(svg);
  };

  // Shows a time, a second at least.
  const buttons = document.querySelectorAll("[data-do]");
  const look = (from, to) => {
    const length = Math.min(whole[1], Math.max(1000, to - from));
    const begin = Math.min(whole[1] - length, Math.max(0, from + (to - from - length) / 2));
    view = [begin, begin + length];
    refresh();
  };
  const turn = (action) => {
    const length = view[1] - view[0];
    const moves = { in: [0.25, -0.25], out: [-0.5, 0.5], earlier: [-0.5, -0.5], later: [0.5, 0.5] };
    if (action === "all") look(...whole);
    else look(...view.map((end, i) => end + moves[action][i] * length));
  };
  const refresh = () => {
    chart();
    at("range").textContent = `${timeText(view[0], false, isLong)} to ${timeText(view[1], false, isLong)}`;
    const [isFirst, isLast] = [view[0] <= 0, view[1] >= whole[1]];
    const isEnd = { in: view[1] - view[0] <= 1000, out: isFirst && isLast, earlier: isFirst, later: isLast, all: isFirst && isLast };
    for (const button of buttons) button.disabled = isEnd[button.dataset.do];
    if (callTable) { callTable.most = callTable.step; callTable.show(); }
  };
  if (calls.length) {
    at("tools").hidden = false;
    for (const button of buttons) button.addEventListener("click", () => turn(button.dataset.do));
    refresh();
    let wide = at("chart").clientWidth;
    new ResizeObserver(() => {
      if (at("chart").clientWidth !== wide) { wide = at("chart").clientWidth; chart(); }
    }).observe(at("chart"));
  } else {
    at("time").hidden = true;
  }

  // Paper shows up to 2,000 rows, a chart as wide as the paper, and the words.
  const words = document.querySelector("details");
  let kept = null;
  addEventListener("beforeprint", () => {
    kept ||= [tables.map((table) => table.most), words.open];
    for (const table of tables) { table.most = 2000; table.show(); }
    words.open = true;
    if (calls.length) chart(720);
  });
  addEventListener("afterprint", () => {
    if (!kept) return;
    tables.forEach((table, i) => { table.most = kept[0][i]; table.show(); });
    words.open = kept[1];
    kept = null;
    if (calls.length) chart();
  });
})();
