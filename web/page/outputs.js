// What the desk writes, read line by line (docs/output.md).
const outputs = (() => {
  const linesOf = text => text.split("\n").slice(0, -1);

  // The words of a scope at the begin of a list, and the words after it.
  const scopeOf = words => {
    const length = { all: 1, land: 2, party: 2, list: 3 }[words[0]];
    return [words.slice(0, length), words.slice(length)];
  };

  // A seat table.
  const tableOf = lines => {
    const table = { total: 0, parties: [], lists: [], vacant: [], singles: [], open: [] };
    for (const line of lines) {
      const [kind, ...rest] = line.split(" ");
      if (kind === "total") table.total = Number(rest[0]);
      else if (kind === "party") table.parties.push({ party: rest[0], seats: Number(rest[1]), direct: Number(rest[2]) });
      else if (kind === "list") table.lists.push({ land: rest[0], party: rest[1], seats: Number(rest[2]), direct: Number(rest[3]) });
      else if (kind === "vacant") table.vacant.push({ land: rest[0], party: rest[1], seats: Number(rest[2]) });
      else if (kind === "single") table.singles.push(rest[0]);
      else if (kind === "open") table.open.push(rest[0]);
    }
    return table;
  };

  // A line of a seat: its stage, its scope, its entry, its number there, its step, and the mark that won it.
  const seatOf = words => {
    const [scope, rest] = scopeOf(words.slice(1));
    return { stage: words[0], scope, entry: rest[0], number: Number(rest[1]), step: Number(rest[2]), mark: rest.slice(3).join(" ") };
  };

  const boundsOf = words => {
    const [scope, rest] = scopeOf(words.slice(1));
    return { stage: words[0], scope, last: rest[0], next: rest[1], lot: rest[2] === "lot" };
  };

  // The steps of the seats, the bounds, and the table after them.
  const stepsOf = text => {
    const lines = linesOf(text);
    const seats = [], bounds = [], table = [];
    for (const line of lines) {
      const words = line.split(" ");
      if (words[0] === "seat") seats.push(seatOf(words.slice(1)));
      else if (words[0] === "bounds") bounds.push(boundsOf(words.slice(1)));
      else table.push(line);
    }
    return { seats, bounds, table: tableOf(table) };
  };

  // A legal fault: its stage, its scope and its kind; of a tie the seats, and the names of those that are tied.
  const faultOf = line => {
    const words = line.split(" ").slice(1);
    const [scope, rest] = scopeOf(words.slice(1));
    return { stage: words[0], scope, kind: rest[0], seats: Number(rest[1] || 0), names: rest.slice(2) };
  };

  // The number of the record that a line `refused returns` names, if it names one.
  const rowOf = line => Number(line.split(" ")[3]) || 0;

  // A fraction NUM/DEN in decimals, cut after the second place.
  const cut = fraction => {
    const [num, den] = fraction.split("/").map(BigInt);
    const digits = ((num * 100n) / den).toString().padStart(3, "0");
    return digits.slice(0, -2) + "." + digits.slice(-2);
  };

  // What a command that reports has written as JSON; where the call failed, a report without anything.
  const reportOf = ({ status, out }) => (status < NO_MEMORY ? JSON.parse(decoded(out)) : { status, fault: null, explanation: null, tables: null });

  // The tables of a report; nothing where it did not reach them.
  const tablesOf = ({ status, tables }) => (status === 0 ? tables : null);

  return { linesOf, tableOf, stepsOf, faultOf, rowOf, cut, reportOf, tablesOf };
})();
