// The tables of a result: parties, who is not in the house, lists and winners.
const tables = (() => {
  const DASH = { aligned: "–" };

  const patterned = party =>
    svg("path", { d: colours.pattern(party), stroke: colours.inkOn(colours.of(party)), "stroke-width": 1.4, fill: "none", class: "patterned", "data-swatch-ink": party });

  // A small square in a party's colour and pattern.
  const swatch = party =>
    svg("svg", { viewBox: "0 0 8 8", class: "swatch", "aria-hidden": "true" },
      svg("rect", { width: 8, height: 8, fill: colours.of(party), "data-swatch": party }),
      party ? patterned(party) : null);

  // A party by its colour and its full name, on a phone with the short one before it.
  const named = party => el("span", { class: "named" }, swatch(party), el("bdi", {}, party ? names.party(party) : t("independent")));

  // A share in percent, cut after the second digit; numbers are below 2^53.
  const percent = (part, whole) => {
    if (!whole) return "–";
    const cut = Math.floor((part * 10000) / whole);
    return grouped(Math.floor(cut / 100)) + point() + String(cut % 100).padStart(2, "0");
  };

  // A bar as long as a share of the whole.
  const bar = (party, part, whole) =>
    svg("svg", { viewBox: "0 0 100 10", preserveAspectRatio: "none", class: "bar", "aria-hidden": "true" },
      svg("rect", { width: whole ? ((100 * part) / whole).toFixed(2) : 0, height: 10, fill: colours.of(party), "data-swatch": party }));

  const signed = number => (number > 0 ? "+" : number < 0 ? "−" : "±") + grouped(Math.abs(number));

  // The sums of the votes by the parties' names.
  const votesOf = result => new Map(((result.totals && result.totals.votes) || []).map(row => [row.party, row]));

  const decimalOf = text => (text === null ? DASH : { aligned: decimal(text) });

  const hasWinners = result => Boolean(result.totals && result.totals.totals[0].winners);

  // A head of a column of numbers, and a cell that a phone has no room for.
  const amount = (head, title) => ({ head, kind: "number", title });
  const aside = plain => ({ plain, kind: "wide" });

  // The columns of the parties in the house: each with its head, the cell of a party and that of the sum. Who is of no party has no votes.
  const partyColumns = (result, most) => {
    const votes = votesOf(result);
    const { total } = result.table;
    const sums = result.totals && result.totals.totals[0];
    const winners = hasWinners(result);
    const shareOf = p => (votes.has(p.party) && votes.get(p.party).percent !== null ? { aligned: decimal(votes.get(p.party).percent) } : DASH);
    const columns = [
      { head: t("party"), of: p => named(p.party), sum: t("sum") },
      { head: { head: t("valid"), kind: "wide number" }, of: p => aside(votes.has(p.party) ? grouped(votes.get(p.party).valid) : ""), sum: aside(sums ? grouped(sums.valid) : "") },
      { head: amount(t("votesPercent")), of: shareOf, sum: "" },
      { head: { head: "", kind: "wide" }, of: p => aside(bar(p.party, p.seats, most)), sum: aside("") },
      { head: amount(t("seats")), of: p => p.seats, sum: total },
      { head: amount(t("seatsPercent")), of: p => ({ aligned: percent(p.seats, total) }), sum: "" },
      { head: amount(t("directShort"), t("direct")), of: p => (winners || p.direct ? p.direct : DASH), sum: winners ? null : DASH },
    ];
    if (!state.before) return columns;
    const { name, seats, total: before } = state.before;
    const difference = p => ({ aligned: p.party ? signed(p.seats - (seats.get(p.party) || 0)) : "", kind: "difference" });
    return [...columns, { head: amount("± " + name), of: difference, sum: { aligned: signed(total - before) } }];
  };

  // The parties that sit in the house, those with most seats first, and then those of no party.
  const parties = (result, winOf) => {
    const votes = votesOf(result);
    const validOf = p => (votes.has(p.party) ? votes.get(p.party).valid : 0);
    const seated = result.table.parties.filter(p => p.seats > 0).sort((one, other) => other.seats - one.seats || validOf(other) - validOf(one));
    const free = result.table.singles.filter(name => !winOf(name).party).length;
    const all = free ? [...seated, { party: "", seats: free, direct: free }] : seated;
    const columns = partyColumns(result, Math.max(1, ...all.map(p => p.seats)));
    const direct = result.table.parties.reduce((sum, p) => sum + p.direct, free);
    const rows = all.map(p => ({ data: { "data-party": p.party }, cells: columns.map(column => column.of(p)) }));
    rows.push({ mark: "sum", cells: columns.map(column => (column.sum === null ? direct : column.sum)) });
    return [
      tableWith(t("parties"), columns.map(column => column.head), rows, { class: "parties" }),
      hasWinners(result) ? null : el("p", { class: "note no-winners" }, t("noWinnersGiven")),
    ];
  };

  // Why a party has no seat: what it lacks to take part, or that its votes are too few for a seat.
  const reason = (row, missing) => {
    const lacks = [["lacksVotes", row.votes_short], ["lacksWinners", row.winners_short]].filter(([, number]) => number !== null).map(([key, number]) => t(key, grouped(number)));
    if (row.condition !== null) return missing.has(row.party) ? t("tooFewMissing", grouped(missing.get(row.party))) : t("tooFew");
    return lacks.length ? t("takesNoPart", lacks.join(t("or"))) : t("takesNoPartAtAll");
  };

  // The votes missing for a first seat, of parties for which the report has them.
  const missingOf = result =>
    new Map(((result.report && result.report.entries) || [])
      .filter(row => row.scope === "all" && row.missing !== null && shapes.ofRow(row) === "party")
      .map(row => [row.entry, row.missing]));

  // The parties that are not in the house.
  const absent = result => {
    const seats = new Map(result.table.parties.map(p => [p.party, p.seats]));
    const missing = missingOf(result);
    const all = ((result.totals && result.totals.votes) || []).filter(row => !seats.get(row.party)).sort((one, other) => other.valid - one.valid);
    if (!all.length) return null;
    const rows = all.map(row => ({ data: { "data-party": row.party }, cells: [named(row.party), row.valid, decimalOf(row.percent), reason(row, missing)] }));
    return tableWith(t("absent"), [t("party"), amount(t("valid")), amount(t("votesPercent")), t("why")], rows, { class: "absent" });
  };

  // The lists, those without seats only where they are asked for.
  const lists = result => {
    const all = result.table.lists;
    const some = all.filter(l => l.seats > 0);
    const direct = list => (hasWinners(result) || list.direct ? list.direct : DASH);
    const table = items =>
      tableWith(t("lists"), [t("land"), t("party"), amount(t("seats")), amount(t("directShort"), t("direct"))],
        items.map(l => ({ data: { "data-list": l.land + "/" + l.party }, cells: [el("bdi", {}, names.land(l.land)), named(l.party), l.seats, direct(l)] })), { class: "lists" });
    return opened("lists", t("lists"), body => {
      shown(body, table(some));
      if (some.length < all.length) body.append(opened("all-lists", t("allLists", grouped(all.length - some.length)), inner => shown(inner, table(all))));
    }, { class: "lists" });
  };

  // Winners, ranked by their share of the first votes.
  const winners = (caption, list, winOf) => {
    const ranked = list.map(winOf).sort((a, b) => b.votes * a.of - a.votes * b.of);
    const rows = ranked.map(w => [el("bdi", {}, names.win(w.name)), names.land(w.land), named(w.party), w.votes, w.of, { aligned: percent(w.votes, w.of) }]);
    return tableWith(caption, [t("constituency"), t("land"), t("party"), amount(t("firstVotes")), amount(t("of")), amount(t("share") + " %")], rows);
  };

  // Whoever sits on no list, or does not sit, and vacant seats.
  const others = (result, winOf) => {
    const { singles, open, vacant } = result.table;
    return [
      singles.length ? winners(t("singles"), singles, winOf) : null,
      open.length ? [winners(t("open"), open, winOf), el("p", { class: "note" }, t("openNote"))] : null,
      vacant.length
        ? tableWith(t("vacantSeats"), [t("land"), t("party"), amount(t("seats"))], vacant.map(v => [names.land(v.land), named(v.party), v.seats]))
        : null,
    ];
  };

  // Sums of the returns, and who takes part by a rulebook, as `totals` has them.
  const totals = ({ book, totals: given }) => {
    const sums = given.totals[0];
    const lacks = number => (number === null ? DASH : number);
    const part = row => (row.condition === null ? "–" : el("span", { title: row.condition }, conditionText(row.condition)));
    const rows = given.votes.map(row => [
      named(row.party), row.valid, decimalOf(row.percent), row.counted, sums.winners ? row.winners : DASH,
      ...(book ? [part(row), lacks(row.votes_short), lacks(row.winners_short)] : []),
    ]);
    rows.push({ cells: [t("sum"), sums.valid, "", sums.counted, sums.winners || DASH, ...(book ? ["", "", ""] : [])], mark: "sum" });
    const heads = ["valid", "percent", "countedVotes", "winners"].map(key => amount(t(key)));
    const byBook = book ? [t("takesPart"), amount(t("votesShort")), amount(t("winnersShort"))] : [];
    return [
      el("p", {}, t("totalsOf", grouped(sums.lands), grouped(sums.parties), grouped(sums.lists), grouped(sums.winners), grouped(sums.independents))),
      tableWith(t("totals"), [t("party"), ...heads, ...byBook], rows, { class: "totals" }),
    ];
  };

  return { parties, absent, lists, others, totals, named, swatch, percent, signed };
})();
