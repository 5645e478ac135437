// Files that the user saves: nothing else of the page is kept.
const saving = (() => {
  const save = (name, type, content) => {
    const url = URL.createObjectURL(content instanceof Blob ? content : new Blob([content], { type }));
    const link = el("a", { href: url, download: name });
    document.body.append(link);
    link.click();
    link.remove();
    setTimeout(() => URL.revokeObjectURL(url), 10000);
  };

  // A cell of a csv file. A text at whose begin a table program would look for a formula gets a quote before it.
  const quoted = cell => {
    const text = /^[=+@\t-]/.test(cell) && !/^-?\d+$/.test(cell) ? "'" + cell : cell;
    return /[",\r\n]/.test(text) ? '"' + text.replace(/"/g, '""') + '"' : text;
  };

  const changeLines = result => changes.told(result.given.base, result.given.changes);

  // The seats of all lists, and of those who are on none; and what was changed in the returns.
  const csvOf = result => {
    const rows = [["statute", "kind", "land", "party", "seats", "direct"]];
    const title = result.book.name;
    for (const p of result.table.parties) rows.push([title, "party", "", p.party, p.seats, p.direct]);
    for (const l of result.table.lists) rows.push([title, "list", l.land, l.party, l.seats, l.direct]);
    for (const v of result.table.vacant) rows.push([title, "vacant", v.land, v.party, v.seats, ""]);
    for (const name of result.table.singles) rows.push([title, "single", "", name, 1, 1]);
    for (const name of result.table.open) rows.push([title, "open", "", name, 0, 0]);
    for (const line of changeLines(result)) rows.push([title, "changed", "", line, "", ""]);
    return rows.map(row => row.map(cell => quoted(String(cell))).join(",")).join("\n") + "\n";
  };

  const jsonOf = result => JSON.stringify({
    returns: result.given.name, changed: changeLines(result), statute: result.book.name, book: result.book.text, sha256: result.sums, status: result.status, text: result.text,
    table: result.table || null, seats: result.table ? result.steps.seats : null, bounds: result.table ? result.steps.bounds : null,
  }, null, 1);

  // The page as a file of its own: what is shown of a result, with all parts filled, and without scripts and what can be pressed.
  const pageOf = (result, articleOf) => {
    kept.isWhole = true;
    let body;
    try {
      body = el("body", {}, byId("result-head").cloneNode(true), byId("changed").cloneNode(true), byId("warnings").cloneNode(true), byId("comparison").cloneNode(true), articleOf(result));
    } finally {
      kept.isWhole = false;
    }
    for (const part of body.querySelectorAll("button")) part.replaceWith(...(part.matches(".show-book, .chip") ? part.childNodes : []));
    for (const part of body.querySelectorAll("input, textarea, select, .controls, .ring")) part.remove();
    for (const seat of body.querySelectorAll(".seat")) {
      seat.removeAttribute("tabindex");
      seat.setAttribute("role", "img");
    }
    const head = el("head", {},
      el("meta", { charset: "utf-8" }), el("meta", { "http-equiv": "Content-Security-Policy", content: "default-src 'none'; style-src 'unsafe-inline'" }),
      el("meta", { name: "viewport", content: "width=device-width, initial-scale=1" }), el("title", {}, document.title), document.querySelector("style").cloneNode(true));
    return "<!DOCTYPE html>\n" + el("html", { lang: document.documentElement.lang }, head, body).outerHTML + "\n";
  };

  // The begin of the names of the files that are saved of a result.
  const nameOf = result =>
    "seatlaw-" + (result.book.isOwn ? "own-" : "") + result.book.name.replace(/[^\w.-]+/g, "_").slice(0, 60) + (changes.isNone(result.given.changes) ? "" : "-" + t("changedSuffix"));

  // The menu of what can be saved of a result, and of the returns where they were changed or have lots.
  const menu = (result, articleOf) => {
    const name = nameOf(result);
    const picture = () => byId("results").querySelector(".house");
    const title = () => result.book.title + " · " + result.given.name;
    const item = (key, act) => {
      const press = async event => {
        event.target.closest("details").open = false;
        event.target.closest("details").firstChild.focus();
        if (document.body.classList.contains("old")) return;
        try {
          await act();
        } catch (error) {
          shown(byId("message"), el("p", { class: "refused", role: "alert" }, t("failedPart", String(error))));
        }
      };
      return el("li", {}, button(key, press, { class: "save-" + key }));
    };
    const items = [
      result.table ? item("savePng", async () => save(name + ".png", "image/png", await images.pngOf(picture(), title()))) : null,
      result.table ? item("saveSvg", () => save(name + ".svg", "image/svg+xml", images.svgOf(picture(), title()))) : null,
      item("savePage", () => save(name + ".html", "text/html", pageOf(result, articleOf))),
      item("saveTable", () => save(name + ".txt", "text/plain", result.text)),
      result.table ? item("saveCsv", () => save(name + ".csv", "text/csv", csvOf(result))) : null,
      result.table ? item("saveSteps", () => save(name + "-steps.txt", "text/plain", result.stepsText)) : null,
      result.table ? item("saveReport", () => save(name + "-report.json", "application/json", result.reportText)) : null,
      item("saveJson", () => save(name + ".json", "application/json", jsonOf(result))),
      result.given.facts.lots || !changes.isNone(result.given.changes) ? item("saveReturns", () => save("returns.csv", "text/csv", result.given.bytes)) : null,
    ];
    return el("details", { class: "menu", id: "save-menu" }, el("summary", { "data-key": "save-menu" }, t("save")), el("ul", {}, items));
  };

  const saveTemplate = () => save("returns-template.csv", "text/csv", TEMPLATE);

  return { menu, saveTemplate, csvOf, jsonOf, pageOf };
})();
