// Several statutes side by side: the table of `compare`, with a small house above each column, from which the statute is chosen that is shown in full.
const comparison = (() => {
  // A number of seats with its share of the house, and its difference from the first statute; where a fault takes its place, the kind of the fault at the house.
  const cell = (number, base, total) => {
    if (typeof number !== "number") return total === 0 && number ? t("faultShort", faultName(number)) : { aligned: "–" };
    const by = typeof base === "number" ? number - base : 0;
    const kind = by > 0 ? "more" : by < 0 ? "fewer" : "";
    return {
      kind: "number " + kind,
      plain: [el("span", { class: "seats" }, grouped(number)), " ",
        by ? el("span", { class: "by" }, tables.signed(by)) : null,
        total ? el("span", { class: "share" }, tables.percent(number, total) + " %") : null],
    };
  };

  const faultName = kind => t("fault_" + kind);

  // The head of a column: its small house, and a button that shows the statute in full.
  const headOf = (compared, book, shownId, choose) => {
    const word = compared.wordOf(book);
    const rows = compared.tables.compare.filter(row => row.party !== null && typeof row[word] === "number" && row[word] > 0);
    const all = compared.tables.compare.find(row => row.party === null);
    const order = colours.ordered(rows.map(row => row.party));
    const seats = order.map(party => [party, rows.find(row => row.party === party)[word]]);
    const rest = typeof all[word] === "number" ? all[word] - seats.reduce((sum, [, count]) => sum + count, 0) : 0;
    return {
      kind: "number",
      head: [
        typeof all[word] === "number" ? house.small([...seats, ["", rest]], all[word]) : null,
        el("button", {
          type: "button", class: "show-book", "data-key": "show " + book.id, "data-shows": book.id, "aria-pressed": String(shownId === book.id), title: book.title,
          onclick: () => choose(book),
        }, book.short),
      ],
    };
  };

  // The first stage of the first statute whose numbers the other one has not.
  const stageOf = (row, first) => (row.fault ? t("faultShort", faultName(row.fault)) : row.differs ? steps.stageCell(row.differs, first) : "–");

  // The table, with the differences from the first statute.
  const part = (compared, shownId, choose) => {
    const { books, tables: given } = compared;
    const words = books.map(compared.wordOf);
    const all = given.compare.find(row => row.party === null);
    const rows = given.compare.filter(row => row.party !== null)
      .filter(row => words.some(word => typeof row[word] !== "number" || row[word] > 0))
      .sort((one, other) => (other[words[0]] || 0) - (one[words[0]] || 0))
      .map(row => ({ data: { "data-party": row.party }, cells: [tables.named(row.party), ...words.map(word => cell(row[word], row[words[0]], all[word]))] }));
    rows.push({ mark: "sum", data: { "data-row": "sum" }, cells: [t("house"), ...words.map(word => cell(all[word], all[words[0]], 0))] });
    rows.push({ data: { "data-row": "majority" }, cells: [t("majority"), ...words.map(word => (typeof all[word] === "number" ? house.majorityOf(all[word]) : "–"))] });
    for (const key of ["beyond", "open"]) {
      rows.push({ data: { "data-row": key }, cells: [t(key), ...given.books.map(book => (book[key] === null ? { aligned: "–" } : book[key]))] });
    }
    rows.push({ data: { "data-row": "differs" }, cells: [el("span", { title: t("differsInHelp") }, t("differsIn")), ...given.books.map((book, i) => (i || book.fault ? stageOf(book, books[0]) : "–"))] });
    return el("section", { class: "comparison", "aria-label": t("compared") },
      el("h2", {}, t("compared")),
      tableWith(t("parties"), [t("party"), ...books.map(book => headOf(compared, book, shownId, choose))], rows, { class: "compared" }),
      el("p", { class: "note" }, t("comparedNote", books[0].title)));
  };

  return { part };
})();
