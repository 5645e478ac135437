// The language of the page, and how it writes numbers and conditions.

// The language: 0 for German, 1 for English.
let language = (navigator.language || "en").toLowerCase().startsWith("de") ? 0 : 1;

// The word by which the program knows it.
const word = () => ["de", "en"][language];

const withWords = (text, words) => text.replace(/\{(\d)\}/g, (_, i) => words[i]);
const t = (key, ...words) => withWords(TEXTS[key][language], words);

// A number with its thousands apart, as the language writes it.
const grouped = number => String(number).replace(/\B(?=(\d{3})+$)/g, language ? "," : ".");
const point = () => (language ? "." : ",");

// A condition of a rulebook, as the program names it in few words.
const conditionText = text => {
  const share = /^(\d+) per (\d+)$/.exec(text);
  if (share) return share[2] === "100" ? t("conditionPercent", share[1]) : t("conditionShare", share[1], share[2]);
  const winners = /^(\d+) winners$/.exec(text);
  if (winners) return t("conditionWinners", winners[1]);
  return text === "minority" ? t("conditionMinority") : text === "all" ? t("conditionAll") : text;
};

// A decimal number as the language writes it.
const decimal = text => {
  const [whole, places] = text.split(".");
  return grouped(whole) + (places ? point() + places : "");
};
