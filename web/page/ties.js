// A tie: a form in which the names are ordered as the lot has fallen, and the records that it makes.
const ties = (() => {
  // With more names than this, a text takes the place of choices.
  const MOST_CHOICES = 30;

  // The records of the lots, by the names of the tie: the explanation has one for each name, in their order.
  const recordsOf = (fault, told) =>
    told && told.records.length === fault.names.length ? new Map(fault.names.map((name, i) => [name, told.records[i]])) : null;

  // A name as it is shown: the cells of its record tell whether it is a Land, a party, a list or a winner.
  const nameOf = (name, record) => {
    const [, land, party, stage] = record.split(",");
    return stage === "seats" ? names.win(name) : names.entry(name, land && !party ? "land" : "party");
  };

  // Each place has a choice among the names; a choice exchanges two names.
  const choices = (fault, all, changed) => {
    const order = [...fault.names];
    const place = el("div", {});
    const exchange = (at, name) => {
      const other = order.indexOf(name);
      [order[at], order[other]] = [order[other], order[at]];
      show();
      changed(order);
      place.querySelectorAll("select")[at].focus();
    };
    const show = () => shown(place, el("ol", {}, order.map((name, at) => el("li", {},
      el("label", {}, t("drawn", at + 1), " ",
        el("select", { onchange: event => exchange(at, event.target.value) },
          fault.names.map(other => el("option", { value: other, selected: other === name }, nameOf(other, all.get(other))))))))));
    show();
    return place;
  };

  // Many names stand in a text, one on each line, which has to have each of them once.
  const lines = (fault, changed) => {
    const all = [...fault.names].sort().join("\n");
    const read = event => {
      const order = event.target.value.split("\n").map(line => line.trim()).filter(Boolean);
      changed([...order].sort().join("\n") === all ? order : null);
    };
    const text = el("textarea", { rows: 12, spellcheck: "false", oninput: read });
    text.value = fault.names.join("\n");
    return el("label", {}, t("drawnLines"), text);
  };

  // The form, with the records that it makes.
  const form = (fault, told, add) => {
    const all = recordsOf(fault, told);
    if (!all) return null;
    const result = el("div", { "aria-live": "polite" });
    const changed = order => {
      const records = order && order.map(name => all.get(name));
      shown(result,
        el("p", {}, t(order ? "lotRecords" : "lotsIncomplete")),
        order ? el("pre", { class: "lots" }, records.join("\n")) : null,
        el("p", {}, el("button", { type: "button", class: "add-lots", disabled: !order, onclick: () => add(records) }, t("addLots"))));
    };
    changed(fault.names);
    return el("section", { class: "tie", "aria-label": t("tie") },
      el("h4", {}, t("tie")),
      el("p", {}, t("tieHelp", fault.seats, fault.names.length)),
      fault.names.length > MOST_CHOICES ? lines(fault, changed) : choices(fault, all, changed),
      result);
  };

  return { form };
})();
