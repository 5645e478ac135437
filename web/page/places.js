// Where the seats of a house lie: rows in a half circle of the radius 1, and in each row parties side by side, with straight edges between them.
const places = (() => {
  const INNER = 0.34; // the radius of the free half circle in the middle

  // So many things shared out by weights: each the whole part of its quota, the others by the greatest remainders.
  const shared = (count, weights) => {
    const sum = weights.reduce((a, b) => a + b, 0);
    const sizes = weights.map(weight => Math.floor((count * weight) / sum));
    const rests = weights.map((weight, i) => [((count * weight) / sum) % 1, i]).sort((a, b) => b[0] - a[0]);
    const left = count - sizes.reduce((a, b) => a + b, 0);
    for (let i = 0; i < left; i++) sizes[rests[i % rests.length][1]] += 1;
    return sizes;
  };

  // The rows of a house: their radii, how many seats each has, and the radius of a seat.
  const rowsOf = count => {
    const rows = Math.max(1, Math.round(Math.sqrt((count * 2 * (1 - INNER)) / (Math.PI * (1 + INNER)))));
    const gap = (1 - INNER) / rows;
    const radii = Array.from({ length: rows }, (_, i) => INNER + gap * (i + 0.5));
    const sizes = shared(count, radii);
    const pitch = Math.min(gap, ...radii.map((radius, i) => (Math.PI * radius) / Math.max(1, sizes[i])), 0.3);
    return { radii, sizes, radius: pitch * 0.485 };
  };

  // Increasing numbers that are at least so far apart and as near as can be to the wanted ones, within bounds.
  const apart = (wanted, least, from, to) => {
    const blocks = [];
    wanted.forEach((value, i) => {
      blocks.push({ sum: value - i * least, count: 1 });
      for (let last = blocks.length - 1; last > 0 && blocks[last - 1].sum / blocks[last - 1].count > blocks[last].sum / blocks[last].count; last--) {
        const merged = blocks.pop();
        blocks[last - 1].sum += merged.sum;
        blocks[last - 1].count += merged.count;
      }
    });
    const most = to - (wanted.length - 1) * least;
    const values = blocks.flatMap(block => Array(block.count).fill(Math.max(from, Math.min(most, block.sum / block.count))));
    return values.map((value, i) => value + i * least);
  };

  // To which row each seat belongs, in the order of the angles of evenly filled rows.
  const rowOfEach = sizes => {
    const all = sizes.flatMap((size, row) => Array.from({ length: size }, (_, i) => ({ row, angle: (i + 0.5) / size })));
    return all.sort((a, b) => a.angle - b.angle || a.row - b.row).map(seat => seat.row);
  };

  // The places of the seats of parties with so many seats each, from left to right: for each party its seats by their angles, in half turns.
  const of = counts => {
    const total = Math.max(1, counts.reduce((a, b) => a + b, 0));
    const { radii, sizes, radius } = rowsOf(total);
    const rowOf = rowOfEach(sizes);
    const wanted = radii.map(() => []);
    let begin = 0;
    counts.forEach((count, party) => {
      const inRow = radii.map((_, row) => rowOf.slice(begin, begin + count).filter(own => own === row).length);
      inRow.forEach((number, row) => {
        for (let i = 0; i < number; i++) wanted[row].push({ party, angle: (begin + (count * (i + 0.5)) / number) / total });
      });
      begin += count;
    });
    const seats = counts.map(() => []);
    wanted.forEach((row, at) => {
      const least = (2.03 * radius) / (Math.PI * radii[at]);
      const angles = apart(row.map(seat => seat.angle), least, least / 2, 1 - least / 2);
      row.forEach((seat, i) => seats[seat.party].push({ angle: angles[i], x: -Math.cos(Math.PI * angles[i]) * radii[at], y: Math.sin(Math.PI * angles[i]) * radii[at] }));
    });
    for (const own of seats) own.sort((a, b) => a.angle - b.angle || b.y - a.y);
    return { seats, radius };
  };

  return { of, apart, INNER };
})();
