// Returns as they are shown: records and cells of a csv file, and the names that the page takes from them. What they mean, the desk judges.
const returns = (() => {
  // A cell as it is meant: quotes around it are taken off, and two of them inside are one.
  const cellOf = raw => {
    if (raw[0] !== '"') return raw;
    let text = "", at = 1;
    for (;;) {
      const quote = raw.indexOf('"', at);
      if (quote < 0) return text + raw.slice(at);
      text += raw.slice(at, quote);
      if (raw[quote + 1] !== '"') return text + raw.slice(quote + 1);
      text += '"';
      at = quote + 2;
    }
  };

  // A record of a text: the line on which it begins, and the offsets at which its cells and a next one would begin. Its cells are read when they are first
  // asked for, since of large returns few are shown.
  class Row {
    constructor(text, line, starts) {
      Object.assign(this, { text, line, starts, read: null });
    }

    cell(k) {
      return cellOf(this.text.slice(this.starts[k], this.starts[k + 1] - 1));
    }

    get cells() {
      if (!this.read) this.read = Array.from({ length: this.starts.length - 1 }, (_, k) => this.cell(k));
      return this.read;
    }
  }

  // The records of a text. Empty lines are none.
  const recordsOf = text => {
    const records = [];
    let starts = [], line = 1, begin = 1, quoted = false;
    let start = text.charCodeAt(0) === 0xfeff ? 1 : 0;
    for (let i = start; i <= text.length; i++) {
      const c = i < text.length ? text.charCodeAt(i) : 10;
      if (c > 44) continue;
      if (c === 34 && (quoted || i === start)) quoted = !quoted;
      const ends = (c === 10 || c === 13) && (!quoted || i === text.length);
      if (ends || (c === 44 && !quoted)) {
        if (c === 44 || starts.length || i > start) starts.push(start);
        start = i + 1;
      }
      if (c === 13 || (c === 10 && text.charCodeAt(i - 1) !== 13)) line += 1;
      if (ends) {
        if (starts.length) {
          starts.push(start);
          records.push(new Row(text, begin, starts));
          starts = [];
        }
        begin = line;
      }
    }
    return records;
  };

  // The names of the parties, the winners, and how many lots there are; cells that are no numbers count as 0.
  const factsOf = records => {
    const facts = { parties: [], wins: new Map(), lots: 0 };
    for (const record of records.slice(1)) {
      if (record.cell(0) === "list") continue;
      const [kind, land, party, a, b, c] = record.cells;
      if (kind === "party") facts.parties.push(party);
      else if (kind === "win") facts.wins.set(a, { land, party, name: a, votes: number(b), of: number(c) });
      else if (kind === "lot") facts.lots += 1;
    }
    return facts;
  };

  const number = cell => (/^[0-9]{1,12}$/.test(cell || "") ? Number(cell) : 0);

  // The numbers of a record's cells in which a part of the text lies; none where it is all of the record, or none of it.
  const cellsIn = ({ cells, starts }, [from, to]) => {
    const cellAt = offset => starts.findLastIndex(start => start <= offset);
    const [first, last] = [cellAt(from), cellAt(Math.max(from, to - 1))];
    const isWhole = cells.length > 1 && from <= starts[0] && to >= starts[cells.length] - 1;
    return first < 0 || isWhole ? [] : [...cells.keys()].slice(first, last + 1);
  };

  return { recordsOf, factsOf, cellsIn };
})();
