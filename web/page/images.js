// The picture of the house as a file: SVG, with all that it needs inside, or PNG, which the browser paints of it.
const images = (() => {
  const WIDTH = 2096; // of a PNG, in pixels

  // The picture of a result as the text of an SVG file.
  const svgOf = (picture, title) => {
    const copy = picture.cloneNode(true);
    for (const [name, value] of Object.entries({ xmlns: SVG, width: 1048, height: 504, color: "#1c1c1c", "font-family": "system-ui, sans-serif" })) copy.setAttribute(name, value);
    for (const name of ["class", "role", "aria-label"]) copy.removeAttribute(name);
    for (const party of copy.querySelectorAll("g.party")) {
      party.setAttribute("stroke", "#6f6f6f");
      party.setAttribute("stroke-width", "0.2");
    }
    for (const seat of copy.querySelectorAll("circle")) {
      if (seat.classList.contains("vacant")) {
        seat.setAttribute("stroke", "#1c1c1c");
        seat.setAttribute("stroke-width", "0.5");
      }
      const name = svg("title", {}, seat.getAttribute("aria-label") || "");
      for (const attribute of [...seat.attributes]) if (/^(role|tabindex|aria-|data-|class)/.test(attribute.name)) seat.removeAttribute(attribute.name);
      seat.append(name);
    }
    for (const ring of copy.querySelectorAll(".ring")) ring.remove();
    copy.prepend(svg("title", {}, title), svg("rect", { x: -131, y: -122, width: 262, height: 126, fill: "#ffffff" }));
    return new XMLSerializer().serializeToString(copy) + "\n";
  };

  // The picture as the bytes of a PNG file.
  const pngOf = (picture, title) =>
    new Promise((resolve, reject) => {
      const image = new Image();
      image.onload = () => {
        const canvas = document.createElement("canvas");
        canvas.width = WIDTH;
        canvas.height = Math.round((WIDTH * image.naturalHeight) / image.naturalWidth);
        canvas.getContext("2d").drawImage(image, 0, 0, canvas.width, canvas.height);
        canvas.toBlob(blob => (blob ? resolve(blob) : reject(new Error("no picture"))), "image/png");
      };
      image.onerror = () => reject(new Error("no picture"));
      image.src = "data:image/svg+xml;charset=utf-8," + encodeURIComponent(svgOf(picture, title));
    });

  return { svgOf, pngOf };
})();
