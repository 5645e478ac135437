// All that the desk answers of rulebooks and of returns, asked for in one place in the words of the command line.
const answers = (() => {
  const NO_BYTES = new Uint8Array(0);

  // A part of a result that is made when it is first asked for.
  const later = (result, name, make) => {
    let made;
    Object.defineProperty(result, name, { enumerable: true, get: () => made || (made = make()) });
  };

  // The word of a rulebook: a statute's name, or that of the file that a rulebook of the user's is.
  const wordOf = book => (book.isOwn ? book.id : "@" + book.name);

  // Asks for a command of rulebooks on returns. Explanations are not asked for as texts: the JSON has what they say.
  const asked = (words, books, bytes, more = []) =>
    calls.ask([...words, "--quiet"], [{ name: "returns", bytes }, ...books.filter(book => book.isOwn).map(book => ({ name: wordOf(book), bytes: book.bytes })), ...more]);

  // The same of a command that reports: it writes JSON, in the language of the page and with the full names.
  const reported = (words, books, bytes) => asked([...words, "--json", "--lang", word(), ...names.words()], books, bytes, names.files());

  // The sums of returns, with a book or without one.
  const totalled = (books, bytes) => reported(["totals", "returns", ...books.map(wordOf)], books, bytes);

  // Whether bytes are a rulebook, and the line that says so, or why not.
  const checked = async bytes => {
    const { status, out, error } = await calls.ask(["check", "--quiet", "book"], [{ name: "book", bytes }]);
    return { status, line: decoded(out).trimEnd() || error || "" };
  };

  // What is said of a result in a language: why it has no table, and the warnings.
  const saidBy = (report, totals) => ({ told: report.explanation, warnings: (totals.tables && totals.tables.warnings) || [] });

  // Adds what there is where the count has a table: its steps, its report and its stages.
  const seated = (result, steps, report, stages) => {
    result.table = outputs.tableOf(outputs.linesOf(result.text));
    result.stepsText = steps.out;
    result.reportText = report.out;
    later(result, "steps", () => outputs.stepsOf(decoded(steps.out)));
    later(result, "report", () => outputs.tablesOf(outputs.reportOf(report)));
    later(result, "stages", () => outputs.tablesOf(outputs.reportOf(stages)));
    if (names.file()) names.take(result.report);
  };

  // What the desk answers of one rulebook on returns: the count with its steps, its report and its stages, or why there is none; and the sums. Where a call
  // failed, all of them did.
  const of = async (book, bytes) => {
    const spoken = language;
    const both = [wordOf(book), "returns"];
    const plain = ["count", "steps"].map(command => asked([command, ...both], [book], bytes));
    const reports = ["report", "stages"].map(command => reported([command, ...both], [book], bytes));
    const replies = await Promise.all([...plain, ...reports, totalled([book], bytes)]);
    const [count, steps, report, stages, totals] = replies;
    const { status, took, error } = replies.find(reply => reply.status >= NO_MEMORY) || count;
    const sums = outputs.reportOf(totals);
    const result = { book, status, took, error, text: status < NO_MEMORY ? decoded(count.out) : "", totals: outputs.tablesOf(sums) };
    names.take(result.totals);
    if (status === 0) seated(result, steps, report, stages);
    result.said = new Map([[spoken, saidBy(status === 0 ? sums : outputs.reportOf(report), sums)]]);
    return result;
  };

  // What returns come to without a rulebook: their sums, or why they are refused.
  const withoutBook = async bytes => {
    const spoken = language;
    const reply = await totalled([], bytes);
    const report = outputs.reportOf(reply);
    const totals = outputs.tablesOf(report);
    names.take(totals);
    return { ...reply, book: null, totals, text: report.fault ? report.fault + "\n" : "", said: new Map([[spoken, saidBy(report, report)]]) };
  };

  // Asks for what is said of a result in the language of the page, where that is not known yet.
  const translated = async result => {
    if (!result || result.said.has(language)) return;
    const spoken = language;
    const { book, status, given } = result;
    const totals = outputs.reportOf(await totalled(book ? [book] : [], given.bytes));
    const report = status === 3 ? outputs.reportOf(await reported(["report", wordOf(book), "returns"], [book], given.bytes)) : totals;
    result.said.set(spoken, saidBy(report, totals));
  };

  // What is said of a result in the language of the page.
  const saidOf = result => result.said.get(language) || { told: null, warnings: [] };

  // Why a rulebook is refused, in the language of the page.
  const refusedBook = async book => outputs.reportOf(await reported(["report", wordOf(book), "returns"], [book], NO_BYTES)).explanation;

  // What rulebooks come to side by side, as `compare` has it; nothing where they cannot be compared.
  const compared = async (books, bytes) => {
    const tables = outputs.tablesOf(outputs.reportOf(await reported(["compare", "returns", ...books.map(wordOf)], books, bytes)));
    return tables && { tables, books, wordOf };
  };

  return { checked, of, withoutBook, translated, saidOf, refusedBook, compared };
})();

// What the entries of a stage are: parties, Länder or lists.
const shapes = (() => {
  // An entry of the report, by the Land and the party that it has.
  const ofRow = row => (row.land !== null ? (row.party !== null ? "list" : "land") : row.party !== null ? "party" : "win");

  // What an entry is, by its stage, its scope and its name.
  const kindOf = (result, stage, scope, entry) => {
    if (entry.includes("/")) return "list";
    if (scope[0] === "all") return (result.stages && result.stages.stages.find(row => row.stage === stage) || {}).shape || "party";
    return scope[0] === "land" ? "party" : scope[0] === "party" ? "land" : "win";
  };

  return { ofRow, kindOf };
})();
