// The page: what is shown when, and what happens on what is pressed, dropped and chosen.
const page = (() => {
  // ---- what is told

  let said = [];
  const say = (key, ...words) => {
    said = [key, ...words];
    shown(byId("status"), key ? t(key, ...words) : null);
    byId("cancel").hidden = key !== "counting";
    byId("again").hidden = key !== "cancelled";
  };

  // Messages about files, each a key and its words, which stay until something else is taken.
  const tell = problems => shown(byId("message"), problems.map(([key, ...words]) => el("p", { class: "refused", role: "alert" }, t(key, ...words))));

  // ---- what is counted

  const { shownResult } = results;
  let showing = 0;

  // Shows what was counted; what is shown later takes the place of what is under way.
  const showResults = async () => {
    const turn = ++showing;
    const result = shownResult();
    const isStill = () => turn === showing;
    await answers.translated(result);
    const made = result && isStill() && !results.isRefused(result) ? await results.articleInTurns(result, isStill) : null;
    const side = made && state.compared ? comparison.part(state.compared, state.shownId, showBook) : null;
    await pause();
    if (!isStill()) return;
    byId("result-part").hidden = !result || results.isRefused(result);
    results.showHead(result);
    await renewedInTurns([[byId("comparison"), side], [byId("results"), made]], [...(side ? [side] : []), ...(made ? results.turnsOf(made) : [])]);
    if (!isStill()) return;
    if (state.isOld) markOld();
    document.body.dataset.shown = String(turn);
  };

  // Marks what stands there as that of a count before: it is not saved.
  const markOld = () => {
    state.isOld = true;
    document.body.classList.add("old");
    byId("results").setAttribute("aria-busy", "true");
    const menu = byId("save-menu");
    if (menu) menu.open = false;
    for (const save of document.querySelectorAll("#save-place button")) save.disabled = true;
    shown(byId("old-note"), state.counted ? t("oldNote", state.counted) : null);
  };

  // Counts by the rulebook that is shown, and compares all that are chosen. Nothing where a later count has begun.
  const asked = async (books, isStill) => {
    const given = { ...state.returns, base: state.base, changes: changes.copy(state.changes) };
    const { bytes } = given;
    const book = inputs.shownBook(books);
    const counting = book ? answers.of(book, bytes) : answers.withoutBook(bytes);
    const comparing = books.length > 1 ? answers.compared(books, bytes) : null;
    if (comparing) comparing.catch(() => null); // it is told below, or not at all
    const result = await counting;
    await pause();
    if (!isStill()) return null;
    const compared = comparing && result.status !== 2 ? await comparing : null;
    result.given = given;
    result.sums = await sources.sumsOf(book, bytes);
    return isStill() ? { book, result, compared } : null;
  };

  // Counts again; a later count takes the place of one that is under way. Whatever goes wrong is told, and the count is over. Of returns that were just
  // given the result comes into sight.
  const recount = async (isGiven = false) => {
    const turn = ++state.turn;
    try {
      await counted(turn, isGiven);
    } catch (error) {
      say("failedPart", String(error));
      document.body.dataset.counted = String(turn);
    }
  };

  const counted = async (turn, isGiven) => {
    markOld();
    if (!state.returns) {
      Object.assign(state, { results: new Map(), compared: null, refusal: null, shownId: null, counted: "" });
      markNew();
      inputs.showReturns(null, changeCell);
      await showResults();
      say(null);
      document.body.dataset.counted = String(turn);
      return;
    }
    say("counting");
    const books = inputs.chosenBooks();
    const found = await asked(books, () => turn === state.turn);
    if (!found || turn !== state.turn) return;
    const id = found.book ? found.book.id : "";
    Object.assign(state, { results: new Map([[id, found.result]]), shownId: id, compared: found.compared, counted: state.returns.name });
    state.refusal = found.result.status === 2 && found.result.text.startsWith("refused returns") ? found.result : null;
    await shownAll(found.result);
    if (isGiven && turn === state.turn) await showFirst(found.result);
    if (turn !== state.turn) return;
    say(state.refusal ? "refusedShort" : found.book ? "counted" : "noBookChosen", state.returns.name);
    document.body.dataset.counted = String(turn);
  };

  // Brings the result of returns that were just given into sight, or why they are refused, and folds what was given.
  const showFirst = async result => {
    if (state.refusal) byId("returns-answer").scrollIntoView();
    if (result.status === 2 || !result.book) return;
    byId("giving").open = false;
    await drawn();
    byId("result-part").focus({ preventScroll: true });
    byId("work").scrollIntoView();
  };

  // What stands there is that of the last count.
  const markNew = () => {
    state.isOld = false;
    document.body.classList.remove("old");
    byId("results").removeAttribute("aria-busy");
  };

  const shownAll = async result => {
    markNew();
    await answers.translated(result);
    inputs.showReturns(result, changeCell);
    if (state.refusal || result.status !== 0) byId("giving").open = byId("giving").open || Boolean(state.refusal);
    await pause();
    showColours();
    await showResults();
  };

  // Shows another of the chosen rulebooks in full.
  const showBook = book => {
    state.shown = book.id;
    return recount();
  };

  // ---- changes

  let soon = 0;
  const changeSoon = () => {
    clearTimeout(soon);
    inputs.change();
    markOld();
    soon = setTimeout(() => recount(), 30);
  };

  const changeCell = (number, k, text) => {
    const before = state.base.records[number];
    if (before && before.cells[k] === text) state.changes.cells.delete(number + ":" + k);
    else state.changes.cells.set(number + ":" + k, text);
    inputs.change();
    return recount();
  };

  const resetChanges = () => {
    state.changes = changes.none();
    state.reset += 1;
    inputs.change();
    return recount();
  };

  // ---- words and colours

  // The choices of colours, where that part is open.
  const showColours = () => {
    const parties = state.returns && byId("colours-part").open ? state.returns.facts.parties : [];
    renewed(byId("colours"), parties.map(party => el("label", { class: "colour" },
      el("input", {
        type: "color", value: colours.of(party), "aria-label": t("colourOf", names.party(party)), "data-key": "colour " + party,
        oninput: event => {
          colours.choose(party, event.target.value);
          house.recolour(byId("result-part"), state.withPatterns);
        },
      }), " ", el("bdi", {}, names.party(party)))));
  };

  // The elections of the examples, to begin with or to compare with.
  const showElections = () => {
    const by = law => el("span", {}, t("electionBy", law === "2023-order" ? t("orderShort") : law));
    renewed(byId("elections"), ELECTIONS.map(([year, law]) =>
      el("button", { type: "button", class: "election", "data-key": "election " + year, "data-election": year, onclick: () => takeElection(year, law) },
        el("b", {}, year), " ", by(law))));
    renewed(byId("before"), [["", t("noBefore")], ...ELECTIONS.map(([year]) => [year, t("electionOf", year)])].map(([value, text]) =>
      el("option", { value, selected: state.before ? state.before.name === value : value === "" }, text)));
  };

  const showWords = () => {
    document.documentElement.lang = language ? "en" : "de";
    document.title = t("title");
    for (const part of document.querySelectorAll("[data-t]")) shown(part, t(part.dataset.t));
    for (const button of document.querySelectorAll("[data-language]")) button.setAttribute("aria-pressed", String(Number(button.dataset.language) === language));
    shown(byId("sum"), t("sumOf", byId("module").dataset.sum));
    shown(byId("template-text"), TEMPLATE);
  };

  // Shows all in the language of the page; what the program says in it may have to be asked for.
  const showAll = async () => {
    showWords();
    say(...said);
    showElections();
    inputs.showBooks(recount);
    showNames();
    showColours();
    await inputs.translateBook();
    inputs.showOwn();
    await answers.translated(shownResult());
    inputs.showReturns(shownResult(), changeCell);
    return showResults();
  };

  const showNames = () => {
    const file = names.file();
    shown(byId("names-answer"), file ? [el("bdi", {}, file.name), " ", el("button", { type: "button", "data-key": "names-remove", onclick: removeNames }, t("namesRemove"))] : null);
  };

  // ---- what is taken

  let examples = {};
  const exampleText = name => examples[name + ".csv"];

  const takeReturns = async (name, bytes) => {
    tell([]);
    inputs.takeReturns(name, bytes);
    await recount(true);
  };

  const takeElection = (year, law) => {
    state.chosen = new Set([law]);
    state.shown = law;
    state.own = null;
    inputs.showBooks(recount);
    inputs.showOwn();
    return takeReturns(year + ".csv", encoded(exampleText(year)));
  };

  const takeBook = async (name, bytes, isFile) => {
    tell([]);
    await inputs.takeBook(name, bytes, isFile);
    await recount();
  };

  const takeNames = async (name, bytes) => {
    const why = await names.refused(bytes);
    if (why) return ["refusedNames", name, why];
    tell([]);
    names.use({ name, bytes });
    showNames();
    await recount();
    return null;
  };

  const removeNames = () => {
    names.use(null);
    showNames();
    return recount();
  };

  const takers = { book: (name, bytes) => takeBook(name, bytes, true), returns: takeReturns, names: takeNames };

  // Takes a file as what it is chosen for, or as what the desk knows it for. What keeps it from being taken is the answer.
  const takeFile = async (file, kind) => {
    if (!kind && file.size > files.MOST.returns) return ["tooLarge", file.name, grouped(file.size), grouped(files.MOST.returns)];
    const { bytes, error } = await files.read(file, kind ? files.MOST[kind] : files.MOST.returns);
    if (error) return ["unreadable", file.name, String(error.message || error)];
    const known = kind || (await files.kindOf(bytes));
    const problem = await takers[known](file.name, bytes);
    document.body.dataset.taken = known + " " + file.name;
    return problem || null;
  };

  // Takes files one after the other, and tells of those that could not be taken.
  const takeFiles = async (given, kind) => {
    const problems = [];
    for (const file of given) {
      const problem = await takeFile(file, kind);
      if (problem) problems.push(problem);
    }
    if (problems.length) tell(problems);
  };

  const onFile = (id, kind) => byId(id).addEventListener("change", async event => {
    try {
      await takeFiles([...event.target.files], kind);
    } finally {
      event.target.value = "";
    }
  });

  // Files may be dropped anywhere; text that is dragged is left to the browser.
  const onDrop = zone => {
    const hasFiles = event => Boolean(event.dataTransfer) && event.dataTransfer.types.includes("Files");
    document.addEventListener("dragover", event => {
      if (!hasFiles(event)) return;
      event.preventDefault();
      zone.classList.add("over");
    });
    for (const kind of ["dragleave", "dragend", "drop"]) document.addEventListener(kind, () => zone.classList.remove("over"));
    document.addEventListener("drop", async event => {
      if (!hasFiles(event)) return;
      event.preventDefault();
      await takeFiles([...event.dataTransfer.files], null);
    });
  };

  // Compares with an election of the examples, counted by its statute.
  const takeBefore = async year => {
    const law = ELECTIONS.find(([own]) => own === year);
    state.before = null;
    if (law) {
      const { status, out } = await calls.ask(["count", "@" + law[1], "returns"], [{ name: "returns", bytes: encoded(exampleText(year)) }]);
      const table = status === 0 ? outputs.tableOf(outputs.linesOf(decoded(out))) : null;
      if (table) state.before = { name: year, total: table.total, seats: new Map(table.parties.map(p => [p.party, p.seats])) };
    }
    await showResults();
  };

  // ---- what is pressed

  const onClick = (id, act) => byId(id).addEventListener("click", act);

  const listenToInputs = () => {
    onDrop(byId("drop"));
    onFile("returns-file", "returns");
    onFile("own-file", "book");
    onFile("names-file", "names");
    onClick("take", () => takeReturns(t("pasted"), encoded(byId("returns-text").value)));
    onClick("clear", () => {
      tell([]);
      inputs.clear();
      byId("giving").open = true;
      recount();
    });
    onClick("template", saving.saveTemplate);
    onClick("own-take", () => takeBook(state.own ? state.own.name : t("ownBook"), encoded(byId("own-text").value), false));
    onClick("own-remove", () => {
      inputs.removeBook();
      recount();
    });
  };

  const listenToChoices = () => {
    for (const choice of document.querySelectorAll("[data-language]")) {
      choice.addEventListener("click", () => {
        language = Number(choice.dataset.language);
        showAll();
      });
    }
    onClick("cancel", () => {
      state.turn += 1;
      say("cancelled");
      calls.cancel();
    });
    onClick("again", () => recount());
    onClick("print", () => window.print());
    byId("patterns").addEventListener("change", event => {
      state.withPatterns = event.target.checked;
      document.body.classList.toggle("with-patterns", state.withPatterns);
      house.recolour(byId("result-part"), state.withPatterns);
    });
    byId("before").addEventListener("change", event => takeBefore(event.target.value));
    byId("colours-part").addEventListener("toggle", showColours);
    byId("whatif-part").addEventListener("toggle", results.showForm);
    byId("totals-part").addEventListener("toggle", () => inputs.showTotals(shownResult()));
    byId("records-part").addEventListener("toggle", () => state.returns && byId("records-part").open && records.show(changeCell));
  };

  const start = async () => {
    showWords();
    if (!hasWideMemory()) {
      byId("too-old").hidden = false;
      return;
    }
    try {
      state.changes = changes.none();
      Object.assign(results.acts, { recount, show: showResults, reset: resetChanges, change: changeSoon });
      await calls.start();
      examples = JSON.parse(decoded(await unpacked("examples")));
      await inputs.readLaws();
      listenToInputs();
      listenToChoices();
      await showAll();
      byId("work").hidden = false;
      say(null);
      document.body.dataset.ready = performance.now().toFixed(0);
    } catch (error) {
      byId("too-old").hidden = false;
      shown(byId("too-old"), t("failed", String(error)));
    }
  };

  // What a test of the page calls.
  return { start, ask: calls.ask, takeReturns, recount, state, saving, shownResult, article: results.article, calls, Desk, statusOf, encoded, unpacked };
})();

window.page = page;
page.start();
