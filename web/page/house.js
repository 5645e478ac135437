// The house as a half circle of seats: who sits on them, and the picture.
const house = (() => {
  const SIZE = 100; // the radius of the half circle in the picture
  const MOST_LABELS = 16;
  const REACH = 2.5; // how far from a seat's middle a press still means it, in radii of the seat
  const MIDDLE = { x: 0, "text-anchor": "middle", fill: "currentColor" };

  // Things by a key that they have, each key with its things in their order.
  const by = (things, keyOf) => {
    const found = new Map();
    for (const thing of things) {
      const key = keyOf(thing);
      if (!found.has(key)) found.set(key, []);
      found.get(key).push(thing);
    }
    return found;
  };

  // The seats of a list, the vacant ones last.
  const seatsOfList = (list, vacant) => {
    const filledSeats = list.seats - (vacant.get(list.land + "/" + list.party) || 0);
    return Array.from({ length: list.seats }, (_, i) => ({ party: list.party, land: list.land, number: i + 1, vacant: i >= filledSeats }));
  };

  // Who sits in the house, from left to right: parties with the seats of their lists, then those of their winners on no list; last those of no party.
  const groupsOf = (table, winOf) => {
    const vacant = new Map(table.vacant.map(v => [v.land + "/" + v.party, v.seats]));
    const lists = by(table.lists.filter(list => list.seats), list => list.party);
    const singles = by(table.singles, name => winOf(name).party || "");
    const seatsOf = party => [
      ...(lists.get(party) || []).flatMap(list => seatsOfList(list, vacant)), ...(singles.get(party) || []).map(single => ({ party, single })),
    ];
    return [...colours.ordered(table.parties.map(p => p.party)), ""].map(party => ({ party, seats: seatsOf(party) })).filter(group => group.seats.length);
  };

  const nameOf = party => (party ? names.party(party) : t("independent"));

  const labelOf = seat =>
    seat.single
      ? t("seatSingle", names.win(seat.single), nameOf(seat.party))
      : t(seat.vacant ? "seatVacant" : "seatOf", names.party(seat.party), names.land(seat.land), String(seat.number));

  const idOf = (book, party) => "pattern-" + book.replace(/[^\w-]/g, "_") + "-" + (party || "_");

  // The colour of a party with its pattern over it, to fill seats with.
  const patternOf = (id, party, width) =>
    svg("pattern", { id, width, height: width, patternUnits: "userSpaceOnUse", viewBox: "0 0 8 8", "data-party": party },
      svg("rect", { width: 8, height: 8, fill: colours.of(party) }),
      svg("path", { d: party ? colours.pattern(party) : "M0 0", stroke: colours.inkOn(colours.of(party)), "stroke-width": 1.3, fill: "none" }));

  const fillOf = (book, party, withPatterns) => (withPatterns && party ? "url(#" + idOf(book, party) + ")" : colours.of(party));

  // Puts the colours of now, and patterns or none, into the pictures that stand there.
  const recolour = (root, withPatterns) => {
    for (const group of root.querySelectorAll("g.party")) group.setAttribute("fill", fillOf(group.dataset.book, group.dataset.party, withPatterns));
    for (const pattern of root.querySelectorAll("pattern")) {
      pattern.firstChild.setAttribute("fill", colours.of(pattern.dataset.party));
      pattern.lastChild.setAttribute("stroke", colours.inkOn(colours.of(pattern.dataset.party)));
    }
    for (const part of root.querySelectorAll("[data-swatch]")) part.setAttribute("fill", colours.of(part.dataset.swatch));
    for (const part of root.querySelectorAll("[data-swatch-ink]")) part.setAttribute("stroke", colours.inkOn(colours.of(part.dataset.swatchInk)));
  };

  // A point at so many half turns and a distance from the middle.
  const at = (angle, distance) => [-Math.cos(Math.PI * angle) * distance, -Math.sin(Math.PI * angle) * distance].map(part => part.toFixed(1));

  // The label of a party: its name above its number, and a line to the middle of its sector.
  const label = (group, own, angle) => {
    const [cos, isHigh] = [-Math.cos(Math.PI * angle), Math.sin(Math.PI * angle) > 0.5];
    const [x, y] = at(angle, SIZE + 6);
    const place = { x, "text-anchor": cos < -0.25 ? "end" : cos > 0.25 ? "start" : "middle", "font-size": 6.6, fill: "currentColor" };
    const line = "M" + at(own, SIZE + 0.5).join(" ") + "L" + at(angle, SIZE + 4.5).join(" ");
    return svg("g", { class: "label", "data-party": group.party },
      svg("path", { class: "leader", fill: "none", stroke: "currentColor", "stroke-width": 0.4, d: line }),
      svg("text", { ...place, y: (Number(y) - (isHigh ? 6 : 1)).toFixed(1) }, group.party ? names.short(group.party) : t("independent")),
      svg("text", { ...place, y: (Number(y) + (isHigh ? 1 : 6)).toFixed(1), "font-weight": 700, class: "count" }, grouped(group.seats.length)));
  };

  // The labels at the parties' sectors, moved apart where they would touch; of many parties those with enough seats.
  const labels = groups => {
    const total = groups.reduce((sum, group) => sum + group.seats.length, 0);
    let begin = 0;
    const middles = groups.map(group => {
      begin += group.seats.length;
      return (begin - group.seats.length / 2) / total;
    });
    const shownAt = [...groups.keys()].filter(i => groups.length <= MOST_LABELS || groups[i].seats.length * 30 >= total);
    const angles = places.apart(shownAt.map(i => middles[i]), Math.min(0.075, 0.94 / Math.max(1, shownAt.length)), 0.02, 0.98);
    return shownAt.map((i, k) => label(groups[i], middles[i], angles[k]));
  };

  // The line at half of the seats, and the number of seats in the middle, with that of a majority.
  const middle = total => [
    svg("path", {
      class: "majority-line", d: "M0 " + -SIZE * (places.INNER - 0.04) + "L0 " + -(SIZE + 2), stroke: "currentColor", "stroke-width": 0.8, "stroke-dasharray": "3 2",
    }),
    svg("text", { ...MIDDLE, y: -11, "font-size": 17, "font-weight": 700, class: "total", "data-total": total }, grouped(total)),
    svg("text", { ...MIDDLE, y: -3, "font-size": 5.6, class: "majority" }, t("majorityFrom", grouped(majorityOf(total)))),
  ];

  const majorityOf = total => Math.floor(total / 2) + 1;

  // One seat can have the focus; the arrow keys go from seat to seat, and the page keys from party to party.
  const withKeys = (group, marks, firsts, choose, circled) => {
    const target = (key, at) => {
      if (key === "Home") return 0;
      if (key === "End") return marks.length - 1;
      if (key === "PageDown") return firsts.find(first => first > at) ?? marks.length - 1;
      if (key === "PageUp") return firsts.findLast(first => first < at) ?? 0;
      return at + ({ ArrowRight: 1, ArrowDown: 1, ArrowLeft: -1, ArrowUp: -1 }[key] || NaN);
    };
    group.addEventListener("keydown", event => {
      const at = marks.indexOf(event.target);
      const to = target(event.key, at);
      if (at >= 0 && marks[to]) {
        marks[at].setAttribute("tabindex", "-1");
        marks[to].setAttribute("tabindex", "0");
        marks[to].focus();
        circled(marks[to]);
        event.preventDefault();
      } else if (at >= 0 && (event.key === "Enter" || event.key === " ")) {
        choose(at);
        event.preventDefault();
      }
    });
  };

  // A ring in black and white around the seat with the focus, which is seen on each colour; and what puts it around a seat.
  const withRing = group => {
    const rings = ["out", "in"].map(kind => svg("circle", { class: kind }));
    const ring = svg("g", { class: "ring", visibility: "hidden", "aria-hidden": "true" }, rings);
    const circled = seat => {
      for (const one of rings) for (const [name, by] of [["cx", 0], ["cy", 0], ["r", 0.8]]) one.setAttribute(name, Number(seat.getAttribute(name)) + by);
      ring.setAttribute("visibility", "visible");
    };
    group.addEventListener("focusin", event => circled(event.target));
    group.addEventListener("focusout", () => ring.setAttribute("visibility", "hidden"));
    return { ring, circled };
  };

  // What makes the circles of seats, of which there may be thousands: each is a copy of one.
  const circleMaker = (radius, book) => {
    const like = svg("circle", { r: (radius * SIZE).toFixed(2), class: "seat", role: "button", tabindex: "-1" });
    return (seat, place, number) => {
      const made = like.cloneNode(false);
      const own = { cx: (place.x * SIZE).toFixed(2), cy: (-place.y * SIZE).toFixed(2), "aria-label": visible(labelOf(seat)), "data-seat": number, "data-key": "seat " + book + " " + number };
      for (const name in own) made.setAttribute(name, own[name]);
      if (number === 0) made.setAttribute("tabindex", "0");
      if (seat.vacant) filled(made, { class: "seat vacant", fill: "none" }, []);
      return made;
    };
  };

  const SEATS_AT_ONCE = 1000;

  // The seats of the house as groups of circles, and the circles in their order; of many seats so many are made at once.
  const drawnSeats = function* (groups, book, withPatterns) {
    const { seats, radius } = places.of(groups.map(group => group.seats.length));
    const circle = circleMaker(radius, book);
    yield;
    const marks = [];
    const parts = groups.map(group => svg("g", { class: "party", "data-party": group.party, "data-book": book, fill: fillOf(book, group.party, withPatterns) }));
    for (const [at, group] of groups.entries()) {
      for (const [i, seat] of group.seats.entries()) {
        marks.push(circle(seat, seats[at][i], marks.length));
        parts[at].append(marks[marks.length - 1]);
        if (marks.length % SEATS_AT_ONCE === 0) yield;
      }
    }
    const defs = svg("defs", {}, groups.map(group => patternOf(idOf(book, group.party), group.party, (radius * SIZE * 1.1).toFixed(2))));
    return { marks, parts, defs };
  };

  // The number of the seat at which a picture was pressed: on a small screen a finger is wider than a seat, so the nearest one within reach is meant.
  const nearestSeat = (drawn, marks, event) => {
    const at = new DOMPoint(event.clientX, event.clientY).matrixTransform(drawn.getScreenCTM().inverse());
    const distances = marks.map(mark => Math.hypot(mark.getAttribute("cx") - at.x, mark.getAttribute("cy") - at.y));
    const least = Math.min(...distances);
    return marks.length && least <= REACH * marks[0].getAttribute("r") ? distances.indexOf(least) : null;
  };

  // The picture, with the name of the seat under the pointer or with the focus below; choose is called with the number of the seat that is clicked.
  const picture = function* (result, winOf, withPatterns, choose) {
    const groups = groupsOf(result.table, winOf);
    const { marks, parts, defs } = yield* drawnSeats(groups, result.book.id, withPatterns);
    yield;
    const group = svg("g", { role: "group", "aria-label": t("houseSeats"), class: "seats" }, parts);
    const firsts = groups.map((_, at) => groups.slice(0, at).reduce((sum, own) => sum + own.seats.length, 0));
    const name = el("p", { class: "seat-name", "aria-hidden": "true" }, "\u00a0");
    for (const kind of ["mouseover", "focusin"]) {
      group.addEventListener(kind, event => {
        name.textContent = (event.target.closest("circle") && event.target.getAttribute("aria-label")) || "\u00a0";
      });
    }
    const { ring, circled } = withRing(group);
    withKeys(group, marks, firsts, choose, circled);
    const drawn = svg("svg", { viewBox: "-131 -122 262 126", class: "house", role: "group", "aria-label": t("houseLabel", String(result.table.total)) },
      defs, group, ring, svg("g", { "aria-hidden": "true", class: "around" }, labels(groups), middle(result.table.total)));
    drawn.addEventListener("click", event => {
      const number = nearestSeat(drawn, marks, event);
      if (number === null) return;
      marks[number].focus({ preventScroll: true });
      choose(number);
    });
    return [drawn, name];
  };

  // A small picture for a column of a comparison: a sector for each party with its seats.
  const small = (seats, total) => {
    let begin = 0;
    const point = (part, radius) => at(part, radius).join(" ");
    const sectors = seats.filter(([, count]) => count > 0).map(([party, count]) => {
      const [from, to] = [begin / total, (begin + count) / total];
      begin += count;
      const d = "M" + point(from, 100) + "A100 100 0 0 1 " + point(to, 100) + "L" + point(to, 45) + "A45 45 0 0 0 " + point(from, 45) + "Z";
      return svg("path", { "data-swatch": party, fill: colours.of(party), d });
    });
    return svg("svg", { viewBox: "-101 -101 202 103", class: "small-house", "aria-hidden": "true" }, sectors,
      svg("text", { ...MIDDLE, y: -4, "font-size": 30, "font-weight": 700 }, grouped(total)));
  };

  // The seat of that number, in the order of the house.
  const seatAt = (result, winOf, number) => groupsOf(result.table, winOf).flatMap(group => group.seats)[number];

  return { picture, small, groupsOf, seatAt, labelOf, majorityOf, nameOf, recolour };
})();
