// Colours, patterns and the order of parties. A colour is the user's choice or one that the page gives, and so is the order from left to right.
const colours = (() => {
  const KNOWN = {
    CDU: "#2b2b2b", CSU: "#7d7d7d", SPD: "#d4133b", GRUENE: "#3a8a2e", FDP: "#e6b800", LINKE: "#a3195b", AFD: "#0a86c4", SSW: "#23407f",
    BSW: "#7d2650", PDS: "#8f1f5f", REDS: "#c62828", BLUES: "#1565c0", GREENS: "#2e7d32",
  };
  const OTHERS = ["#4e79a7", "#b07a00", "#8c564b", "#5f8f3a", "#b04a9a", "#2f8f8f", "#c2571a", "#5b5bb5", "#7a7a7a", "#9a3b3b", "#3b7a57", "#8a6d1f"];
  // How parties of the Bundestag sit, from left to right, the unions together; others stand after them in the order of the returns.
  const SEATED = ["LINKE", "PDS", "BSW", "SPD", "GRUENE", "SSW", "FDP", "CSU", "CDU", "AFD"];
  // Lines within a square of eight.
  const PATTERNS = [
    "M0 0", "M1 1L7 7", "M1 7L7 1", "M0 4L8 4", "M4 0L4 8", "M0 4L8 4M4 0L4 8", "M3 3h2v2h-2z", "M1 1L7 7M1 7L7 1", "M1 2.5L4 5.5L7 2.5",
    "M2 4a2 2 0 1 0 4 0a2 2 0 1 0 -4 0", "M1 2.5L7 2.5M1 5.5L7 5.5", "M2.5 1L2.5 7M5.5 1L5.5 7", "M1 5.5L4 2.5L7 5.5",
  ];
  const NOBODY = "#757575"; // of those without a party
  const chosen = new Map();
  let given = new Map(), moved = null;

  const index = party => given.get(party) || 0;
  const of = party => (party === "" ? NOBODY : chosen.get(party) || KNOWN[party.toUpperCase()] || OTHERS[index(party) % OTHERS.length]);

  const brightness = colour => {
    const [r, g, b] = [1, 3, 5].map(at => parseInt(colour.slice(at, at + 2), 16));
    return r * 299 + g * 587 + b * 114;
  };

  // Black or white, whichever stands out more on a colour.
  const inkOn = colour => (brightness(colour) > 140000 ? "#000000" : "#ffffff");

  const place = party => {
    const at = SEATED.indexOf(party);
    return at < 0 ? SEATED.length + index(party) : at;
  };

  // Parties from left to right.
  const ordered = parties => {
    const places = new Map(parties.map(party => [party, moved && moved.includes(party) ? moved.indexOf(party) : (moved ? moved.length : 0) + place(party)]));
    return [...parties].sort((one, other) => places.get(one) - places.get(other));
  };

  // Puts a party of these, which stand from left to right, at another place among them.
  const move = (parties, party, to) => {
    const others = parties.filter(other => other !== party);
    moved = [...others.slice(0, to), party, ...others.slice(to)];
  };

  return {
    of,
    inkOn,
    ordered,
    move,
    isMoved: () => moved !== null,
    unmoved: () => {
      moved = null;
    },
    // the parties of the returns, in their order
    setOrder: parties => {
      if (moved && !parties.every(party => given.has(party))) moved = null;
      given = new Map(parties.map((party, i) => [party, i]));
    },
    choose: (party, colour) => chosen.set(party, colour),
    pattern: party => PATTERNS[index(party) % PATTERNS.length],
  };
})();
