// Of each scope the divisor, its quotients, the last seat and the next claim; of its entries the votes missing for one more seat: as `report` has them.
const margins = (() => {
  // The divisor of a scope, of which that of equal claims may be a fraction, or its quota.
  const divisor = (row, bounds) =>
    row.divisor !== null ? row.divisor.split("/").map(decimal).join("/")
      : row.quota !== null ? t("quota", decimal(row.quota))
        : bounds && bounds.lot ? t("byLot") : "–";

  const keyOf = row => row.stage + " " + row.scope;
  const scopeOf = row => row.scope.split(" ");
  const nameOf = (row, book) => t("stageOf", steps.stageName(row.stage, book), steps.scopeName(scopeOf(row)));

  // The entries that won a last seat, or have the next claim.
  const entriesOf = (result, row, all) => (all ? all.map(name => names.entry(name, shapes.kindOf(result, row.stage, scopeOf(row), name))).join(", ") : "–");

  // The scopes, with the quotients of the lines `bounds`.
  const scopes = result => {
    const rows = result.report.scopes;
    const bounds = new Map(result.steps.bounds.map(b => [b.stage + " " + b.scope.join(" "), b]));
    const cellsOf = row => {
      const own = bounds.get(keyOf(row));
      return [
        steps.stageCell(row.stage, result.book), steps.scopeName(scopeOf(row)), row.seats, { aligned: divisor(row, own) },
        own ? steps.quotient(own.last) : "–", entriesOf(result, row, row.last), own ? steps.quotient(own.next) : "–", entriesOf(result, row, row.next),
      ];
    };
    const heads = ["stage", "scope", "seats", "divisor", "last", "lastOf", "next", "nextOf"];
    return tableWith(t("bounds"), heads.map(head => t(head)), rows.map(cellsOf), { class: "bounds" });
  };

  // The entries of one scope. Votes are people where a stage gives seats to Länder.
  const entries = (result, scope) => {
    const rows = result.report.entries.filter(row => keyOf(row) === keyOf(scope));
    const withMinima = rows.some(row => row.minimum !== null);
    const withLot = rows.some(row => row.lot !== null);
    const lot = row => (row.lot === null ? "–" : t(row.lot ? "seatByLot" : "noSeatByLot"));
    const number = value => (value === null ? { aligned: "–" } : value);
    const cellsOf = row => [
      names.entry(row.entry, shapes.ofRow(row)), row.votes, { aligned: row.quotient === null ? "–" : decimal(row.quotient) }, row.seats, ...(withMinima ? [number(row.minimum)] : []), number(row.missing),
      ...(withLot ? [lot(row)] : []),
    ];
    const weight = rows.length && shapes.ofRow(rows[0]) === "land" && scope.scope === "all" ? "people" : "votes";
    const heads = ["entry", weight, "quotient", "seats", ...(withMinima ? ["minimum"] : []), "missing", ...(withLot ? ["lot"] : [])];
    return tableWith(nameOf(scope, result.book), heads.map(head => t(head)), rows.map(row => ({ data: { "data-entry": row.entry }, cells: cellsOf(row) })), { class: "missing" });
  };

  const all = result => opened("bounds", t("bounds"), body => {
    if (!result.report) return shown(body, t("noMemory"));
    const scopeByKey = new Map(result.report.scopes.map(row => [keyOf(row), row]));
    return shown(body,
      el("p", { class: "note" }, t("boundsNote")),
      scopes(result),
      el("p", { class: "note" }, t("missingNote")),
      chooser("bounds-scope", t("scope"), [...scopeByKey].map(([key, row]) => [key, nameOf(row, result.book)]), key => entries(result, scopeByKey.get(key))));
  }, { class: "bounds" });

  return { all };
})();
