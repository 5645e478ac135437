// What the user gives: statutes, a rulebook, returns and names; and how these are shown.

const TEMPLATE = `kind,land,party,a,b,c
house,,,10,,
land,North,,900000,,
land,South,,700000,,
party,,Reds,0,,
party,,Blues,0,,
list,North,Reds,300000,300000,
list,North,Blues,250000,250000,
list,South,Reds,140000,140000,
list,South,Blues,310000,310000,
win,North,Reds,Harbour,52000,110000
win,North,Reds,Hills,47000,105000
win,North,Reds,Lakes,48000,125000
win,North,Reds,Valley,41000,102000
win,South,Blues,Forest,60000,98000
`;

// The elections of the examples, and by which statute each was counted.
const ELECTIONS = [["2025", "2023-order"], ["2013", "2013"], ["2009", "2008"], ["2005", "1985"]];

// What the page knows: the statutes of the library with their texts, which are chosen and which is shown in full, the user's rulebook, the returns as they
// were given and as they are changed, and what the desk answered.
const state = {
  laws: [], chosen: new Set(["2023-order"]), shown: "2023-order", own: null,
  base: null, returns: null, from: 0, changes: null, reset: 0,
  results: new Map(), shownId: null, compared: null, refusal: null, turn: 0, isOld: false, counted: "",
  withPatterns: false, picked: new Set(), seat: null, before: null,
};

const OWN_ID = "own rulebook";

const inputs = (() => {
  const short = name => (name.length > 24 ? name.slice(0, 23) + "…" : name);

  const bookOf = law => ({ ...law, id: law.name, title: t("law" + law.name), short: law.name === "2023-order" ? t("orderShort") : law.name });
  const ownBook = own => ({ ...own, isOwn: true, id: OWN_ID, title: t("ownTitle", short(own.name)), short: t("ownTitle", short(own.name)) });

  const chosenBooks = () => {
    const laws = state.laws.filter(law => state.chosen.has(law.name)).map(bookOf);
    return state.own && state.own.good ? [...laws, ownBook(state.own)] : laws;
  };

  // The rulebook that is shown in full: the one that was asked for, if it is chosen, or else the last one.
  const shownBook = books => books.find(book => book.id === state.shown) || books[books.length - 1] || null;

  // Asks the desk for the texts of the library.
  const readLaws = async () => {
    for (const name of byId("module").dataset.statutes.split(" ")) {
      const { out } = await calls.ask(["law", name], []);
      state.laws.push({ name, bytes: out, text: decoded(out) });
    }
  };

  // ---- rulebooks

  const lawRow = (law, changed) =>
    el("div", { class: "law" },
      el("label", {},
        el("input", {
          type: "checkbox", value: law.name, checked: state.chosen.has(law.name), "data-key": "law " + law.name,
          onchange: event => {
            if (event.target.checked) state.chosen.add(law.name);
            else state.chosen.delete(law.name);
            if (event.target.checked) state.shown = law.name;
            changed();
          },
        }), " ", el("b", {}, law.name === "2023-order" ? t("orderShort") : law.name), " ", el("span", { class: "method" }, t("method" + law.name))),
      el("span", { class: "elections" }, t("elections" + law.name)),
      opened("text " + law.name, el("span", { title: t("bookText", law.name), "aria-label": t("bookText", law.name), role: "img" }, "§"),
        body => shown(body, el("pre", { tabindex: "0" }, law.text)), { class: "law-text" }));

  const showBooks = changed => renewed(byId("books"), state.laws.map(law => lawRow(law, changed)));

  // A refused rulebook: its text with a mark at the place, and below that line what is said of it.
  const marked = ({ text, bytes }, told) => {
    const [from, to] = explanations.spanOf(bytes, told.place);
    const word = text.slice(from, to).trimEnd();
    const length = text.slice(from).search(/[\r\n]|$/);
    const rest = text.slice(from + length).replace(/^(\r\n|\r|\n)/, "");
    return el("div", { class: "marked" },
      el("pre", { tabindex: "0" }, text.slice(0, from), el("mark", {}, word || "⏎"), text.slice(from + word.length, from + length)),
      explanations.part(told),
      rest ? el("pre", { tabindex: "0" }, rest) : null);
  };

  const bookAnswer = own => {
    if (own.good) {
      const words = own.line.split(" ");
      return el("p", { class: "good" }, el("bdi", {}, own.name), ": ", t("bookGood", words[1], words[3], words[5]));
    }
    const told = own.told.get(language);
    const place = told && told.place;
    return el("div", { class: "refused", role: "alert" },
      el("p", {}, el("strong", {}, t("refusedBook")), " ", el("bdi", {}, own.name), place ? " (" + t("lineColumn", place.line, place.column) + ")" : ""),
      el("p", {}, el("code", {}, own.line)),
      place ? marked(own, told) : explanations.part(told));
  };

  const showOwn = () => renewed(byId("own-answer"), state.own ? bookAnswer(state.own) : null);

  // Asks why the user's rulebook is refused, where that is not known in the language of the page.
  const translateBook = async () => {
    const { own } = state;
    const spoken = language;
    if (own && !own.good && !own.told.has(spoken)) own.told.set(spoken, await answers.refusedBook(ownBook(own)));
  };

  // Takes a rulebook of the user's, which the desk judges. What is typed in the text stays as it is; a file takes its place.
  const takeBook = async (name, bytes, isFile) => {
    const { status, line } = await answers.checked(bytes);
    const good = status === 0;
    state.own = { name, bytes, text: decoded(bytes), line, good, told: new Map() };
    await translateBook();
    if (good) state.shown = OWN_ID;
    if (isFile) byId("own-text").value = state.own.text;
    byId("own").open = byId("own").open || !good;
    showOwn();
  };

  const removeBook = () => {
    state.own = null;
    byId("own-text").value = "";
    showOwn();
  };

  // ---- returns

  // Shows the returns, with the record that is refused in sight.
  const showReturns = (result, change) => {
    const given = state.returns;
    shown(byId("returns-taken"), given ? [el("bdi", {}, given.name), ": ", t("taken", grouped(given.records.length), grouped(given.bytes.length))] : t("noReturns"));
    byId("returns-parts").hidden = !given;
    byId("clear").hidden = !given;
    if (!given) return;
    records.seek();
    if (state.refusal) byId("records-part").open = true;
    renewed(byId("returns-answer"), records.answer());
    if (byId("records-part").open) records.show(change);
    showTotals(result);
  };

  // The sums of the returns, where that part is open.
  const showTotals = result => {
    if (byId("totals-part").open) renewed(byId("totals"), result && result.totals ? [tables.totals(result), el("p", { class: "note" }, t("totalsNote"))] : null);
  };

  const withRecords = (name, bytes) => {
    const text = decoded(bytes);
    const all = bytes.length > files.MOST.returns ? [] : returns.recordsOf(text);
    return { name, bytes, text, records: all, facts: returns.factsOf(all) };
  };

  // Puts the changes into the returns as they were given.
  const change = () => {
    state.returns = changes.isNone(state.changes) ? state.base : withRecords(state.base.name, encoded(changes.applied(state.base, state.changes)));
  };

  const takeReturns = (name, bytes) => {
    state.base = state.returns = withRecords(name, bytes);
    state.changes = changes.none();
    state.reset += 1;
    state.from = 0;
    state.seat = null;
    colours.setOrder(state.returns.facts.parties);
  };

  const clear = () => {
    Object.assign(state, { base: null, returns: null, changes: changes.none(), from: 0, seat: null });
    state.reset += 1;
  };

  // Appends records to the returns as they were given.
  const append = added => {
    const { name, bytes } = state.base;
    const open = bytes.length && bytes[bytes.length - 1] !== 10 && bytes[bytes.length - 1] !== 13;
    const more = encoded((open ? "\n" : "") + added.join("\n") + "\n");
    const all = new Uint8Array(bytes.length + more.length);
    all.set(bytes);
    all.set(more, bytes.length);
    state.base = withRecords(name, all);
    change();
  };

  return { chosenBooks, shownBook, readLaws, showBooks, showOwn, takeBook, translateBook, removeBook, showReturns, showTotals, takeReturns, change, clear, append };
})();
