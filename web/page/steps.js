// The steps of seats, and the columns of stages.
const steps = (() => {
  const scopeName = scope =>
    scope[0] === "all" ? t("allScope")
      : scope[0] === "land" ? t("landScope", names.land(scope[1]))
        : scope[0] === "party" ? t("partyScope", names.party(scope[1]))
          : t("listScope", names.land(scope[1]), names.party(scope[2]));

  // A quotient as a fraction and as a decimal number.
  const quotient = text => (text === "inf" ? "∞" : text + " = " + decimal(outputs.cut(text)));

  const markName = mark =>
    mark === "-" ? t("given")
      : mark === "lead" ? t("majorityLead")
        : mark.startsWith("rest ") ? t("rest", mark.slice(5))
          : quotient(mark);

  // A stage of the library's statutes by the word that the law has for it; a rulebook of the user's has names of its own.
  const stageName = (stage, book) => (!book.isOwn && TEXTS["stage_" + stage] ? t("stage_" + stage) : stage);

  // The same with the rulebook's own word for a pointer.
  const stageCell = (stage, book) => el("span", { title: stage, "data-stage": stage }, stageName(stage, book));

  const kindOf = (result, seat) => shapes.kindOf(result, seat.stage, seat.scope, seat.entry);

  const rowOf = (result, seat) => [stageCell(seat.stage, result.book), scopeName(seat.scope), names.entry(seat.entry, kindOf(result, seat)), seat.number, seat.step, markName(seat.mark)];

  const table = (caption, result, seats) =>
    tableWith(caption, ["stage", "scope", "entry", "number", "step", "mark"].map(key => t(key)), seats.map(seat => rowOf(result, seat)), { class: "steps" });

  // The steps of one seat: those of its list's seat of that number, and those of its party where a stage gives seats to parties.
  const ofSeat = (result, seat) => {
    const heading = el("h4", { tabindex: "-1" }, t("seatSteps"), ": ", house.labelOf(seat));
    if (seat.single) return [heading, el("p", {}, t("seatNoSteps"))];
    const list = seat.land + "/" + seat.party;
    const own = result.steps.seats.filter(s => s.entry === list && s.number === seat.number);
    const party = result.steps.seats.filter(s => s.scope[0] === "all" && s.entry === seat.party && kindOf(result, s) === "party");
    return [
      heading,
      own.length ? table(names.entry(list) + " " + seat.number, result, own) : el("p", {}, t("seatNoSteps")),
      party.length ? opened("party-steps", t("ofParty"), body => shown(body, table(t("ofParty"), result, party)), { class: "party-steps" }) : null,
    ];
  };

  // The steps of a stage's scope, which are chosen from a list.
  const all = result => opened("all-steps", t("steps"), body => {
    const keyOf = s => s.stage + " " + s.scope.join(" ");
    const groups = new Map();
    for (const seat of result.steps.seats) {
      if (!groups.has(keyOf(seat))) groups.set(keyOf(seat), []);
      groups.get(keyOf(seat)).push(seat);
    }
    const nameOf = key => t("stageOf", stageName(groups.get(key)[0].stage, result.book), scopeName(groups.get(key)[0].scope));
    shown(body, chooser("steps-scope", t("scope"), [...groups.keys()].map(key => [key, nameOf(key)]), key => table(nameOf(key), result, groups.get(key))));
  }, { class: "all-steps" });

  // The column of a stage.
  const columnOf = (result, { stage, shape }) => {
    const nameOf = entry => (shape === "one" ? t("allScope") : names.entry(entry, shape));
    const rows = result.stages.cells.filter(cell => cell.stage === stage).map(({ entry, value }) => ({ data: { "data-entry": entry }, cells: [nameOf(entry), value] }));
    return tableWith(stageName(stage, result.book), [t("entry"), { head: t("value"), kind: "number" }], rows, { class: "column" });
  };

  // The column of a stage that is chosen.
  const columns = result => {
    const all = new Map(((result.stages && result.stages.stages) || []).map(row => [row.stage, row]));
    const options = [...all.keys()].map(stage => [stage, stageName(stage, result.book)]);
    const choose = body => shown(body, chooser("column-stage", t("stage"), options, stage => columnOf(result, all.get(stage))));
    return all.size ? opened("columns", t("column"), choose, { class: "columns" }) : null;
  };

  return { ofSeat, all, columns, scopeName, stageName, stageCell, quotient };
})();
