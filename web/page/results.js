// What is shown of a count: the house, the tables, the parts after them, and the words where there are no seats.
const results = (() => {
  // What the page does when something in a result is pressed: it counts again, shows again, or takes the changes back.
  const acts = { recount: null, show: null, reset: null, change: null };

  // Who won a constituency of the returns that were counted.
  const winnersOf = result => name => result.given.facts.wins.get(name) || { name, land: "", party: "", votes: 0, of: 0 };

  // A legal fault; of a tie with the form in which it is drawn.
  const legalFault = (result, line) => {
    const fault = outputs.faultOf(line);
    const { told } = answers.saidOf(result);
    const add = lots => {
      inputs.append(lots);
      acts.recount();
    };
    const form = fault.kind === "tie" && !kept.isWhole ? ties.form(fault, told, add) : null;
    return el("div", { class: "fault" },
      el("p", { role: "alert" }, el("strong", {}, t("fault")), " (", steps.stageCell(fault.stage, result.book), ", ", steps.scopeName(fault.scope), ")"),
      el("p", {}, el("code", {}, line)),
      explanations.part(told),
      form);
  };

  // A result without a table.
  const refusal = result => {
    const line = result.text.trimEnd();
    if (result.status === 3) return legalFault(result, line);
    const told = explanations.part(answers.saidOf(result).told);
    if (result.status === 2) return el("div", { class: "refused" }, el("p", {}, el("strong", {}, t("refusedOther")), ": ", el("code", {}, line)), told);
    const why = { [NO_MEMORY]: "noMemory", [LOST]: "lostWorker" }[result.status] || "failedCall";
    return el("div", { class: "refused", role: "alert" }, el("p", {}, t(why, result.status)),
      result.error ? el("p", {}, el("code", {}, result.error)) : null, el("p", { class: "controls" }, button("again", () => acts.recount())));
  };

  // The picture of the house with the parties in their order; a seat that is chosen shows its steps, and stays chosen when all is made again.
  const pictured = function* (result) {
    const detail = el("div", { class: "seat-steps", "aria-live": "polite" });
    const winnerOf = winnersOf(result);
    const choose = number => {
      state.seat = number;
      const seat = house.seatAt(result, winnerOf, number);
      shown(detail, seat ? steps.ofSeat(result, seat) : null);
    };
    const picture = yield* house.picture(result, winnerOf, state.withPatterns, choose);
    const part = el("div", { class: "pictured" }, picture, order.part(result, winnerOf, () => acts.show()), detail);
    if (state.seat !== null) choose(state.seat);
    return part;
  };

  // The parts of a result with a table: the picture and the parties stand side by side, the others below.
  const sides = [pictured, result => el("div", { class: "counted" }, tables.parties(result, winnersOf(result)))];
  const parts = [
    tables.absent,
    result => tables.others(result, winnersOf(result)),
    tables.lists,
    result => [margins.all(result), steps.all(result)],
    steps.columns,
  ];

  // A part, which may be made step by step, or what kept it from being made: the others are shown all the same.
  const safely = function* (part, result) {
    try {
      const made = part(result);
      return made && made.next ? yield* made : made;
    } catch (error) {
      return el("p", { class: "refused", role: "alert" }, t("failedPart", String(error)));
    }
  };

  const emptyArticle = result => el("article", { class: "result", "data-book": result.book ? result.book.id : "", "aria-label": result.book ? t("resultOf", result.book.title) : t("result") });

  // Fills an article part by part.
  const filling = function* (made, result) {
    const beside = result.table ? el("div", { class: "beside" }) : made;
    const all = [...(result.table ? sides : [refusal]).map(part => [beside, part]), ...(result.table ? parts : []).map(part => [made, part]), [made, sources.part]];
    if (beside !== made) made.append(beside);
    for (const [parent, part] of all) {
      filled(parent, {}, [yield* safely(part, result)]);
      yield;
    }
  };

  // A result as a whole, made at once: for a page that is saved.
  const article = result => {
    const made = emptyArticle(result);
    for (const _ of filling(made, result));
    return made;
  };

  // A result, made part by part, so that a large one does not block the page; nothing where something newer is shown meanwhile.
  const articleInTurns = async (result, isStill) => {
    const made = emptyArticle(result);
    for (const _ of filling(made, result)) {
      await pause();
      if (!isStill()) return null;
    }
    return made;
  };

  // What of a result is drawn in a turn of its own, where there is much of it.
  const turnsOf = made => [...made.querySelectorAll(".house, .order, .counted"), ...[...made.children].filter(child => !child.matches(".beside"))];

  const shownResult = () => state.results.get(state.shownId) || null;

  // Whether the returns are refused: what is said of that stands at them.
  const isRefused = result => Boolean(state.refusal) && !result.table;

  // The warnings of the statute that is shown.
  const warnings = result => {
    const all = result ? answers.saidOf(result).warnings : [];
    const itemOf = row => el("li", { "data-warning": row.warning }, row.text);
    return all.length ? el("div", { class: "warned", role: "note" }, el("strong", {}, "⚠ " + t("warnings")), listWith(all, itemOf)) : null;
  };

  // The form of what if, where that part is open.
  const showForm = () => {
    if (byId("whatif-part").open) changes.form.show(state.base, state.changes, shownResult(), () => acts.change());
  };

  // The head of a result: what was chosen, changed and warned of.
  const showHead = result => {
    const books = inputs.chosenBooks();
    const titles = books.map(book => (books.length > 1 ? book.short : book.title)).join(", ");
    const line = state.returns ? [el("b", {}, titles || t("noStatute")), " · ", el("bdi", {}, state.returns.name)] : el("b", {}, t("begin"));
    shown(byId("chosen"), line);
    shown(byId("result-head"), result && result.book ? [result.book.title, " · ", el("bdi", {}, result.given.name)] : t("result"));
    shown(byId("changed"), state.base ? changes.notice(state.base, state.changes, () => acts.reset()) : null);
    shown(byId("warnings"), warnings(result));
    shown(byId("save-place"), result && result.book ? saving.menu(result, article) : null);
    byId("whatif-part").hidden = !state.returns;
    showForm();
  };


  return { acts, article, articleInTurns, turnsOf, showHead, showForm, shownResult, isRefused };
})();
