// Reads out where one points at a map, and shows the same part of all maps of a page, which are of one raster.
(() => {
  const maps = [...document.querySelectorAll("figure.map")].map((figure) => {
    const numbers = (name) => figure.dataset[name].split(" ").map(Number);
    const [rows, columns, step] = numbers("shape");
    return { figure, rows, columns, step, ends: numbers("ends"), view: figure.querySelector(".view"),
      frame: figure.querySelector(".frame"), told: figure.querySelector("output"), data: figure.dataset };
  });
  let part = [0, 0, 1]; // of all maps: its left and upper end and its length, from 0 to 1
  let held = null;

  const places = (length) => Math.max(0, 2 - Math.floor(Math.log10(Math.abs(length) || 1)));
  const label = (value, length) => value.toFixed(Math.min(8, places(length))).replace("-", "\u2212");

  const show = (left, upper, length) => {
    const long = Math.min(1, Math.max(length, 1 / 256));
    const inside = (start) => Math.min(1 - long, Math.max(0, start));
    part = [inside(left), inside(upper), long];
    for (const map of maps) {
      map.view.setAttribute("viewBox", [part[0], part[1], long, long].map((number) => 1000 * number).join(" "));
      map.figure.classList.toggle("part", long < 1);
      const [first, last, top, low] = map.ends;
      const x = (at) => first + at * (last - first), y = (at) => top + at * (low - top);
      const ends = [x(part[0]), x(part[0] + long), y(part[1]), y(part[1] + long)];
      const lengths = [last - first, last - first, low - top, low - top];
      map.figure.querySelectorAll(".ends text").forEach((text, number) => {
        text.textContent = label(ends[number], (long * lengths[number]) / 10);
      });
    }
  };

  const at = (map, event) => {
    const box = map.frame.getBoundingClientRect();
    return [(event.clientX - box.left) / box.width, (event.clientY - box.top) / box.height];
  };

  const load = async (map) => {
    const packed = Uint8Array.from(atob(map.data.values), (letter) => letter.charCodeAt(0));
    const stream = new Blob([packed]).stream().pipeThrough(new DecompressionStream("deflate"));
    map.bytes = new Uint8Array(await new Response(stream).arrayBuffer());
  };

  const value = (map, place) => {
    const code = 256 * map.bytes[place] + map.bytes[map.rows * map.columns + place];
    const step = Number(map.data.step);
    return code === 65535 ? "no value" : `${label(Number(map.data.low) + code * step, 1000 * step)} ${map.data.unit}`;
  };

  const tell = async (map, event) => {
    const [x, y] = at(map, event).map((share, side) => part[side] + share * part[2]);
    const column = Math.floor(x * map.columns), row = Math.floor(y * map.rows);
    if (x < 0 || y < 0 || column >= map.columns || row >= map.rows) return;
    if (map.data.values && !map.bytes) await (map.loading ??= load(map));
    const [first, last, top, low] = map.ends;
    const where = [first + x * (last - first), top + y * (low - top)].map((end) => label(end, (last - first) / 10)).join(", ");
    const words = `column ${column * map.step}, row ${row * map.step}` + (map.data.axes === "pixels" ? "" : ` (${where} ${map.data.axes})`);
    map.told.textContent = map.data.values ? `${words}: ${value(map, row * map.columns + column)}` : words;
  };

  for (const map of maps) {
    map.frame.addEventListener("pointermove", (event) => {
      if (held) show(...held.map((start, side) => start - at(map, event)[side] * part[2]), part[2]);
      tell(map, event);
    });
    map.frame.addEventListener("pointerdown", (event) => {
      tell(map, event);
      if (part[2] < 1) {
        held = at(map, event).map((share, side) => part[side] + share * part[2]);
        map.frame.setPointerCapture(event.pointerId);
      }
    });
    for (const name of ["pointerup", "pointercancel"]) map.frame.addEventListener(name, () => { held = null; });
    map.frame.addEventListener("dblclick", (event) => {
      const [x, y] = at(map, event), long = part[2] / (event.shiftKey ? 0.5 : 2);
      show(part[0] + x * (part[2] - long), part[1] + y * (part[2] - long), long);
    });
    map.figure.querySelector("h3").addEventListener("click", () => show(0, 0, 1));
  }
  addEventListener("keydown", (event) => { if (event.key === "Escape") show(0, 0, 1); });
})();
