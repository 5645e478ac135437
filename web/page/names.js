// Full names of parties, Länder and constituencies. The program reads the file of names; what the page shows are the names in the program's tables.
const names = (() => {
  // How parties of the Bundestag that the examples name in capitals write themselves.
  const PROPER = { AFD: "AfD", GRUENE: "Grüne", LINKE: "Linke" };
  // Returns that are good, for which a file of names is tried.
  const TRIAL = "kind,land,party,a,b,c\nland,X,,1,,\n";
  const full = { party: new Map(), land: new Map(), win: new Map() };
  let file = null;

  const note = (kind, rows, key) => {
    for (const row of rows || []) {
      if (row[key] !== null && row[key + "_name"] && row[key + "_name"] !== row[key]) full[kind].set(row[key], row[key + "_name"]);
    }
  };

  // Takes the names out of tables of `totals` and of `report`.
  const take = tables => {
    if (!tables) return;
    note("party", tables.votes, "party");
    note("land", tables.lands, "land");
    for (const key of ["singles", "open", "covering"]) note("win", tables[key], "constituency");
  };

  // Tries a file: nothing where the program takes it, or else the line with which it is refused.
  const refused = async bytes => {
    const reply = await calls.ask(["totals", "returns", "--json", "--names", "names"], [{ name: "returns", bytes: encoded(TRIAL) }, { name: "names", bytes }]);
    return reply.status === 0 ? null : outputs.reportOf(reply).fault || reply.error || t("failedCall", reply.status);
  };

  const use = given => {
    file = given;
    for (const map of Object.values(full)) map.clear();
  };

  const of = (kind, name) => full[kind].get(name) || (kind === "party" && PROPER[name]) || name;

  // An entry of a stage: all, a list LAND/PARTY, or what the entries of that stage are, where that is known.
  const entry = (name, kind) => {
    const [land, party] = name.split("/");
    if (party !== undefined) return of("land", land) + " / " + of("party", party);
    return Object.hasOwn(full, kind) ? of(kind, name) : name;
  };

  return {
    take,
    refused,
    use,
    entry,
    file: () => file,
    words: () => (file ? ["--names", "names"] : []),
    files: () => (file ? [{ name: "names", bytes: file.bytes }] : []),
    count: () => full.party.size + full.land.size + full.win.size,
    party: name => of("party", name),
    land: name => of("land", name),
    win: name => of("win", name),
    // at the picture of the house, where a long name has no room
    short: name => (full.party.has(name) && [...full.party.get(name)].length <= 9 ? full.party.get(name) : PROPER[name] || name),
  };
})();
