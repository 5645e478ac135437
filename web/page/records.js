// The returns as a table of records, a hundred at a time: a refused one is marked, and the cells can be changed.
const records = (() => {
  const ROWS = 100;
  const LEAST_CELLS = 6;

  const cellsOf = ({ cells }) => [...cells, ...Array(Math.max(0, LEAST_CELLS - cells.length)).fill("")];

  // The number of the record that is refused, with what is said of it, if it is.
  const refused = () => {
    const result = state.refusal;
    return result && { line: result.text.trimEnd(), row: outputs.rowOf(result.text.trimEnd()), told: answers.saidOf(result).told };
  };

  // Puts an input in place of a cell: Enter takes what is typed, Escape leaves it.
  const edit = (cell, record, number, k, change) => {
    const input = el("input", { type: "text", value: record.cells[k], "aria-label": t("cellOf", number + 1), class: "cell-input", size: Math.max(4, record.cells[k].length) });
    const end = taken => {
      if (!input.isConnected) return;
      const text = input.value;
      shown(cell, record.cells[k]);
      cell.focus();
      if (taken && text !== record.cells[k]) change(number, k, text);
    };
    input.addEventListener("keydown", event => {
      if (event.key === "Enter" || event.key === "Escape") {
        event.preventDefault();
        event.stopPropagation();
        end(event.key === "Enter");
      }
    });
    input.addEventListener("blur", () => end(true));
    shown(cell, input);
    input.focus();
    input.select();
  };

  const cell = (record, number, k, text, marks) =>
    el("td", {
      tabindex: "-1", "data-record": number, "data-cell": k, "data-key": "cell " + number + " " + k,
      class: [marks.bad.includes(k) ? "bad-cell" : "", marks.changed.has(k) ? "changed-cell" : ""].join(" ").trim() || null,
      "aria-invalid": marks.bad.includes(k) ? "true" : null, title: marks.changed.has(k) ? t("wasBefore", marks.changed.get(k) || "–") : null,
    }, text);

  // The cells of a record that were changed, with what they were before.
  const changedOf = number => {
    const before = state.base.records[number];
    if (!before) return new Map();
    return new Map(changes.cellsOf(before, number, state.changes).map(([k]) => [k, before.cells[k]]));
  };

  const rowOf = (record, number, fault) => {
    const isBad = fault && fault.row === number + 1;
    const bad = isBad && fault.told && fault.told.place ? returns.cellsIn(record, explanations.spanOf(state.returns.bytes, fault.told.place)) : [];
    const cells = cellsOf(record).map((text, k) => cell(record, number, k, text, { bad, changed: changedOf(number) }));
    const head = el("th", { scope: "row" }, String(number + 1), isBad ? el("strong", {}, " ← " + t("refusedRecord")) : null);
    return [
      el("tr", isBad ? { class: "bad", "aria-invalid": "true", id: "bad-record" } : {}, head, cells),
      isBad && fault.told ? el("tr", { class: "told" }, el("td", { colspan: cells.length + 1 }, explanations.spoken(fault.told.sentence))) : null,
    ];
  };

  // The keys in the table: arrows go from cell to cell, Enter changes one.
  const withKeys = (table, change) => {
    const first = table.querySelector("td[data-cell]");
    if (first) first.setAttribute("tabindex", "0");
    const begin = target => {
      const [number, k] = [Number(target.dataset.record), Number(target.dataset.cell)];
      const record = state.returns.records[number];
      if (k < record.cells.length) edit(target, record, number, k, change);
    };
    table.addEventListener("dblclick", event => event.target.closest("td[data-cell]") && begin(event.target.closest("td[data-cell]")));
    table.addEventListener("keydown", event => {
      const own = event.target.closest("td[data-cell]");
      if (!own || event.target !== own) return;
      if (event.key === "Enter" || event.key === "F2") begin(own);
      const by = { ArrowLeft: [0, -1], ArrowRight: [0, 1], ArrowUp: [-1, 0], ArrowDown: [1, 0] }[event.key];
      const to = by && table.querySelector('td[data-record="' + (Number(own.dataset.record) + by[0]) + '"][data-cell="' + (Number(own.dataset.cell) + by[1]) + '"]');
      if (!to && event.key !== "Enter" && event.key !== "F2") return;
      event.preventDefault();
      if (!to) return;
      own.setAttribute("tabindex", "-1");
      to.setAttribute("tabindex", "0");
      to.focus();
    });
    return table;
  };

  // Shows the records from state.from on.
  const show = change => {
    const all = state.returns.records;
    const fault = refused();
    const from = Math.max(0, Math.min(state.from, all.length - 1));
    const to = Math.min(all.length, from + ROWS);
    const turn = (key, step) => button(key, () => {
      state.from = from + step;
      show(change);
    }, { disabled: step < 0 ? from === 0 : to === all.length });
    const heads = [t("record"), "kind", "land", "party", "a", "b", "c"];
    const table = el("table", { class: "records" }, el("thead", {}, el("tr", {}, heads.map(head => el("th", { scope: "col" }, head)))),
      el("tbody", {}, all.slice(from, to).map((record, i) => rowOf(record, from + i, fault))));
    renewed(byId("records"),
      el("p", { class: "controls" }, t("records", grouped(all.length ? from + 1 : 0), grouped(to), grouped(all.length)), " ", turn("earlier", -ROWS), " ", turn("later", ROWS)),
      el("p", { class: "note controls" }, t("editNote")),
      el("div", { class: "scrolls", role: "region", "aria-label": t("recordsPart") }, withKeys(table, change)));
  };

  // What is said of refused returns.
  const answer = () => {
    const fault = refused();
    if (!fault) return null;
    const record = state.returns.records[fault.row - 1];
    return el("div", { class: "refused", role: "alert" },
      el("p", {}, el("strong", {}, t("refusedReturns")), record ? " (" + t("atRecord", fault.row, record.line) + ")" : ""),
      el("p", {}, el("code", {}, fault.line)),
      record ? el("pre", {}, record.cells.join(",")) : null,
      explanations.part(fault.told));
  };

  // Brings the record that is refused into sight.
  const seek = () => {
    const fault = refused();
    if (fault && fault.row) state.from = Math.max(0, Math.min(fault.row - 20, state.returns.records.length - ROWS));
  };

  return { show, answer, seek };
})();
