// Where a result comes from: the files, the statute, their checksums, the sums and the versions. It stands on the page, in what is saved, and in print.
const sources = (() => {
  const hex = buffer => [...new Uint8Array(buffer)].map(byte => byte.toString(16).padStart(2, "0")).join("");

  // The SHA-256 of bytes, or a dash where the browser gives none.
  const sumOf = async bytes => {
    try {
      return hex(await crypto.subtle.digest("SHA-256", bytes));
    } catch (error) {
      return "–";
    }
  };

  // The checksums of a result's inputs.
  const sumsOf = async (book, returnsBytes) => ({ book: book ? await sumOf(book.bytes) : "", returns: await sumOf(returnsBytes), names: names.file() ? await sumOf(names.file().bytes) : "" });

  const line = (head, ...content) => [el("dt", {}, head), el("dd", {}, ...content)];
  const sum = text => [" · SHA-256 ", el("code", {}, text)];

  // The part of a result.
  const part = result => {
    const total = result.totals && result.totals.totals[0];
    const module = byId("module").dataset;
    return el("section", { class: "sources", "aria-label": t("sources") }, el("h3", {}, t("sources")), el("dl", {},
      line(t("returns"), el("bdi", {}, result.given.name), " · ", t("bytes", grouped(result.given.bytes.length)), sum(result.sums.returns)),
      result.book ? line(t("statute"), el("bdi", {}, result.book.title), sum(result.sums.book)) : null,
      names.file() ? line(t("namesFile"), el("bdi", {}, names.file().name), sum(result.sums.names)) : null,
      total ? line(t("sums"), t("sumsLine", grouped(total.valid), grouped(total.counted), grouped(total.lands), grouped(total.parties), grouped(total.winners))) : null,
      line(t("program"), "seatlaw " + module.version, " · ", t("module"), sum(module.sum)),
      line(t("when"), new Date().toLocaleString(language ? "en" : "de"), result.took ? " · " + t("took", result.took.toFixed(0)) : "")));
  };

  return { sumsOf, part };
})();
