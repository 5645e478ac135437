// What if: votes of parties changed by a share, and cells of the returns by hand. The changed returns are a text like any other, which the desk counts.
const changes = (() => {
  const LISTED = [3, 4]; // the cells of a list's valid and counted votes
  const COLUMNS = ["kind", "land", "party", "a", "b", "c"];

  const none = () => ({ shares: new Map(), cells: new Map() });
  const copy = ({ shares, cells }) => ({ shares: new Map(shares), cells: new Map(cells) });
  const isNone = ({ shares, cells }) => shares.size === 0 && cells.size === 0;

  // A number of votes changed by so many thousandths, cut.
  const changed = (cell, thousandths) => (/^[0-9]{1,12}$/.test(cell) ? String((BigInt(cell) * BigInt(1000 + thousandths)) / 1000n) : cell);

  const quoted = cell => (/[",\r\n]/.test(cell) ? '"' + cell.replace(/"/g, '""') + '"' : cell);

  // The cells of a record that are changed: pairs of their number and their new text.
  const cellsOf = (record, number, { shares, cells }) => {
    const share = record.cells[0] === "list" ? shares.get(record.cells[2]) : undefined;
    return record.cells.flatMap((cell, k) => {
      const own = cells.get(number + ":" + k);
      if (own !== undefined) return [[k, own]];
      return share && LISTED.includes(k) ? [[k, changed(cell, share)]] : [];
    });
  };

  // The text of the returns with the changes in it.
  const applied = ({ text, records }, given) => {
    const pieces = [];
    let at = 0;
    records.forEach((record, number) => {
      for (const [k, cell] of cellsOf(record, number, given)) {
        pieces.push(text.slice(at, record.starts[k]), quoted(cell));
        at = record.starts[k + 1] - 1;
      }
    });
    return pieces.join("") + text.slice(at);
  };

  const shareText = thousandths => (thousandths > 0 ? "+" : "−") + decimal((Math.abs(thousandths) / 10).toFixed(1)) + " %";

  // What was changed, in words.
  const told = ({ records }, { shares, cells }) => [
    ...[...shares].map(([party, share]) => t("changedShare", names.party(party), shareText(share))),
    ...[...cells].map(([key, cell]) => {
      const [number, k] = key.split(":").map(Number);
      return t("changedCell", grouped(number + 1), COLUMNS[k] || k + 1, records[number] ? records[number].cells[k] || "–" : "–", cell || "–");
    }),
  ];

  // The notice above a result.
  const notice = (base, given, reset) =>
    isNone(given) ? null : el("div", { class: "changed", role: "note" },
      el("p", {}, el("strong", {}, t("changedHead", base.name))),
      el("ul", {}, told(base, given).map(line => el("li", {}, line))),
      el("p", { class: "controls" }, button("changedReset", reset)));

  // The form of the parties: made once for returns and a language, so that a slider is not taken away under the hand that moves it.
  const form = (() => {
    let made = null;
    const rowOf = (party, given, act) => {
      const value = (given.shares.get(party) || 0) / 10;
      const votes = el("td", { class: "number", "data-votes": party });
      const inputs = ["range", "number"].map(type => el("input", {
        type, min: type === "range" ? -50 : -100, max: type === "range" ? 50 : 900, step: type === "range" ? 0.5 : 0.1, value, "data-key": type + " " + party, "data-party": party,
        "aria-label": t(type === "range" ? "shareSlider" : "shareNumber", names.party(party)),
        oninput: event => {
          const thousandths = Math.max(-1000, Math.round(Number(event.target.value) * 10) || 0);
          for (const other of inputs) if (other !== event.target) other.value = thousandths / 10;
          if (thousandths) given.shares.set(party, thousandths);
          else given.shares.delete(party);
          act();
        },
      }));
      return el("tr", {}, el("th", { scope: "row" }, tables.named(party)), el("td", {}, inputs[0]), el("td", {}, inputs[1], " %"), votes);
    };
    // Puts the votes of the count into the rows.
    const fill = result => {
      const votes = new Map(((result && result.totals && result.totals.votes) || []).map(row => [row.party, row.valid]));
      for (const cell of byId("whatif").querySelectorAll("[data-votes]")) shown(cell, votes.has(cell.dataset.votes) ? grouped(votes.get(cell.dataset.votes)) : "–");
    };
    const show = (base, given, result, act) => {
      const now = { base, language, reset: state.reset };
      if (!made || Object.keys(now).some(key => made[key] !== now[key])) {
        made = now;
        const parties = base ? base.facts.parties : [];
        renewed(byId("whatif"), el("p", { class: "note" }, t("whatifNote")), el("div", { class: "scrolls", tabindex: "0", role: "region", "aria-label": t("whatif") },
          el("table", { class: "whatif" }, el("thead", {}, el("tr", {}, ["party", "shareBy", "", "valid"].map(key => el("th", { scope: "col" }, key ? t(key) : "")))),
            el("tbody", {}, parties.map(party => rowOf(party, given, act))))));
      }
      fill(result);
    };
    return { show };
  })();

  return { none, copy, isNone, applied, told, notice, cellsOf, form };
})();
