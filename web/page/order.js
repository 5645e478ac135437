// The parties of the house in a row below it: pressed they are summed up, as a coalition; dragged, or moved by keys, they change their order in the house.
const order = (() => {
  const sumOf = groups => groups.filter(group => state.picked.has(group.party)).reduce((sum, group) => sum + group.seats.length, 0);

  // The sum of the pressed parties, against the majority.
  const sumText = (groups, total) => {
    const sum = sumOf(groups);
    if (!sum) return t("pickParties");
    const by = sum - house.majorityOf(total);
    const chosen = groups.filter(group => state.picked.has(group.party)).map(group => (group.party ? names.short(group.party) : t("independent"))).join(" + ");
    return t(by >= 0 ? "sumMajority" : "sumMinority", chosen, grouped(sum), tables.percent(sum, total), grouped(by >= 0 ? by : -by));
  };

  const DRAG = 8; // pixels that a pointer has moved when it drags

  // The chip of the row under a pointer.
  const chipUnder = (row, event) => {
    const found = document.elementFromPoint(event.clientX, event.clientY);
    const chip = found && found.closest(".chip");
    return chip && row.contains(chip) ? chip : null;
  };

  // Lets the chips of a row be dragged, by a mouse, a finger or a pen: drop is called with the chip that was dragged and the one on which it was let go.
  const withDragging = (row, drop) => {
    let held = null, begin = [0, 0], over = null, isDragged = false;
    const mark = chip => {
      if (over) over.classList.remove("under");
      over = chip;
      if (over) over.classList.add("under");
    };
    const end = () => {
      if (held) held.classList.remove("dragged");
      mark(null);
      held = null;
    };
    row.addEventListener("pointerdown", event => {
      held = event.button === 0 ? event.target.closest(".chip") : null;
      begin = [event.clientX, event.clientY];
      isDragged = false;
    });
    row.addEventListener("pointermove", event => {
      if (!held) return;
      if (!isDragged && Math.hypot(event.clientX - begin[0], event.clientY - begin[1]) > DRAG) {
        isDragged = true;
        held.classList.add("dragged");
        row.setPointerCapture(event.pointerId);
      }
      if (isDragged) mark(chipUnder(row, event));
    });
    row.addEventListener("pointerup", event => {
      const [from, to] = [held, chipUnder(row, event)];
      end();
      if (isDragged && from && to && from !== to) drop(from, to);
    });
    row.addEventListener("pointercancel", end);
    // a drag is no press
    row.addEventListener("click", event => {
      if (!isDragged) return;
      isDragged = false;
      event.stopPropagation();
    }, true);
    return row;
  };

  // The row; changed is called when the order is another one.
  const part = (result, winOf, changed) => {
    const groups = house.groupsOf(result.table, winOf);
    const parties = groups.map(group => group.party).filter(Boolean);
    const sum = el("p", { class: sumOf(groups) ? "coalition" : "coalition hint", role: "status" }, sumText(groups, result.table.total));
    const move = (party, to) => {
      colours.move(parties, party, Math.max(0, Math.min(parties.length - 1, to)));
      changed();
    };
    const press = (group, chip) => {
      if (!state.picked.delete(group.party)) state.picked.add(group.party);
      chip.setAttribute("aria-pressed", String(state.picked.has(group.party)));
      sum.classList.toggle("hint", !sumOf(groups));
      shown(sum, sumText(groups, result.table.total));
    };
    const keys = (event, party) => {
      const by = event.shiftKey ? { ArrowLeft: -1, ArrowRight: 1 }[event.key] : 0;
      if (!by) return;
      event.preventDefault();
      move(party, parties.indexOf(party) + by);
    };
    const chipOf = group => {
      const chip = el("button", {
        type: "button", class: "chip", "data-party": group.party, "data-key": "chip " + group.party, "aria-pressed": String(state.picked.has(group.party)),
        onclick: () => press(group, chip),
        onkeydown: event => keys(event, group.party),
      }, tables.swatch(group.party), el("bdi", {}, group.party ? names.short(group.party) : t("independent")), " ", el("b", {}, grouped(group.seats.length)));
      return chip;
    };
    const back = () => {
      colours.unmoved();
      changed();
    };
    const row = el("div", { class: "chips", role: "group", "aria-label": t("orderLabel") }, groups.map(chipOf));
    const drop = (from, to) => from.dataset.party && to.dataset.party && move(from.dataset.party, parties.indexOf(to.dataset.party));
    return el("div", { class: "order" }, withDragging(row, drop), sum,
      el("p", { class: "note controls" }, t("orderNote"), " ", colours.isMoved() ? button("orderBack", back) : null));
  };

  return { part };
})();
