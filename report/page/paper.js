// Paper and the picture that is saved.

// pixels of the bars and of a row on paper
const BARS = 620, LINE = 18;

// Fills the part of the page that is printed with these rows of the timeline, which break between
// pages.
function fillPaper(run, rows) {
  const across = { size: BARS / (run.total + 1), offset: 0, room: BARS };
  const drawing = new Drawing(new Grid(null, across, { size: LINE }), { run, step: -1e9 });
  const line = (tag, ...cells) => make("tr", "", ...cells.map(it => make(tag, "", it)));
  const row = v => {
    const { label, name } = run.task.variables[v], { text, colour } = drawing.wanted(v);
    const named = [make("bdi", "", label), make("bdi", "quiet", " " + name)];
    const bars = sheet(BARS, LINE, drawing.rows([[v, 0]]));
    return line("td", named, bars, make("span", colour, text));
  };
  const axis = sheet(BARS, HEAD, drawing.axis()), goal = run.goal.size ? "Goal" : "";
  const head = make("thead", "", line("th", "Variable", axis, goal));
  const more = left => line("td", left + " more rows");
  get("paper").replaceChildren(head, make("tbody", "", ...some(rows, REAL, row, more)));
}

// The timeline as it is shown, with a title and a legend, as the text of an SVG.
function savedPicture(picture, title, legend) {
  const { box: { clientWidth: w, clientHeight: h } } = picture, back = new Pen(), front = new Pen();
  back.rect(0, 0, w, h + 70, "card");
  back.text(12, 18, title, "ink", w - 24, font(15, 600));
  front.rect(0, h + 36, w, 34, "card");
  let x = 12;
  for (const [name, value] of legend) {
    if (x + 30 + length(name, SMALL) > w) break;
    front.bar(x, h + 46, 14, 14, value);
    front.text(x + 20, h + 53, name, "ink", w);
    x += 36 + length(name, SMALL);
  }
  const copies = picture.layers(w, h).map(it => it.cloneNode(true));
  const layers = shape("g", { transform: "translate(0 36)" }, ...copies);
  const parts = [shape("title", {}, title), get("tiles").firstElementChild.cloneNode(true)];
  const svg = sheet(w, h + 70, ...parts, back.layer(), layers, front.layer());
  // other programs don't know the colours of the page
  const style = getComputedStyle(document.documentElement);
  const text = new XMLSerializer().serializeToString(svg);
  return text.replace(/"var\((--\w+)\)"/g, (_, name) => `"${style.getPropertyValue(name).trim()}"`);
}
