// Why an input is refused or a count has no table, as the program's JSON has it: a sentence, its place, what to do, and further refused records.
const explanations = (() => {
  // The offsets of the begin and the end of a place in the text of an input, of which the program names the bytes.
  const spanOf = (bytes, { start, end }) => {
    const from = decoded(bytes.subarray(0, start)).length;
    return [from, from + decoded(bytes.subarray(start, end)).length];
  };

  // A text in which words between backquotes are code.
  const spoken = text => text.split("`").map((part, i) => (i % 2 ? el("code", {}, part) : part));

  const lines = all => (all.length ? el("ul", {}, all.map(line => el("li", {}, spoken(line)))) : null);

  // What is said, with what to do; nothing where there is no explanation.
  const part = told => told && el("div", { class: "told" },
    el("p", { class: "sentence" }, spoken(told.sentence)),
    lines(told.help),
    told.more.length ? el("div", { class: "further" }, el("p", {}, t("further")), lines(told.more)) : null);

  return { spanOf, spoken, part };
})();
