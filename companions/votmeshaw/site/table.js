// Makes the table of the index, sorts and filters it. What is asked stands behind the '#' of the address, so that it can be linked to:
// #sort=frames&order=descending&verdict=fault&notes=start&find=harbour&all=yes
const few = 250; // rows that are made at once: thousands take seconds
const group = 50; // rows that are laid out at once: where all are shown, when they are seen
const { kinds, noted, rows } = JSON.parse(document.getElementById("data").textContent);
const table = document.getElementById("movies");
const form = document.querySelector("form");
const heads = [...table.tHead.rows[0].cells];
const movies = rows.map((row, at) => {
  const [page, name, kind, marks, notes, game, md5, time, frames, checkpoints, judged, reason] = row;
  const verdict = kinds[kind][0];
  const text = [name, verdict, notes, game, md5, judged, reason].join(" ").toLowerCase();
  return { at, page, name, kind, verdict, marks: marks ? marks.split(" ") : [], notes, game, md5, time, frames, checkpoints, judged, reason, text };
});
// What each column is sorted by; blanks come last, and 150 before 1200.
const keys = {
  name: (movie) => movie.at,
  verdict: (movie) => 2 * movie.kind + (movie.marks.length > 0),
  notes: (movie) => movie.notes,
  game: (movie) => movie.game || movie.md5,
  time: (movie) => movie.frames,
  frames: (movie) => movie.frames,
  checkpoints: (movie) => movie.checkpoints,
  judged: (movie) => movie.judged,
};
const { compare } = new Intl.Collator("en", { numeric: true });
let asked = new URLSearchParams();
let found = [];
let sorted = "";
let times = 0; // how often something was asked

// The movies in the order that is asked.
function sort() {
  const column = Object.hasOwn(keys, asked.get("sort")) ? asked.get("sort") : "name";
  const sign = asked.get("order") === "descending" ? -1 : 1;
  for (const head of heads) {
    if (head.id === column) head.setAttribute("aria-sort", sign === 1 ? "ascending" : "descending");
    else head.removeAttribute("aria-sort");
  }
  if (sorted === column + sign) return;
  sorted = column + sign;
  for (const movie of movies) movie.key = keys[column](movie);
  const isText = typeof movies.find((movie) => movie.key !== "")?.key === "string";
  movies.sort((one, other) => {
    if (one.key === "" || other.key === "") return (one.key === "") - (other.key === "") || one.at - other.at;
    return sign * (isText ? compare(one.key, other.key) : one.key - other.key) || one.at - other.at;
  });
}

// An element with a class and what is in it.
function element(name, style, ...inside) {
  const made = document.createElement(name);
  if (style) made.className = style;
  made.append(...inside);
  return made;
}

// A movie's row, made when it is shown first.
function rowOf(movie) {
  if (movie.row) return movie.row;
  const [sign, style] = movie.marks.length ? noted : kinds[movie.kind].slice(1);
  const link = element("a", "", element("bdi", "", movie.name));
  link.href = `movies/${movie.page}.html`;
  const name = element("th", "name", link);
  name.scope = "row";
  const seen = element("span", "", sign);
  seen.setAttribute("aria-hidden", "true");
  const game = element("td", "game", movie.game || element("code", "", movie.md5));
  if (movie.game) game.title = movie.md5;
  const cells = ["time", "frames", "checkpoints"].map((column) => element("td", `${column} number`, String(movie[column])));
  const verdict = element("td", `verdict ${style}`, seen, ` ${movie.verdict}`);
  if (movie.reason) verdict.append(element("div", "reason", movie.reason));
  movie.row = element("tr", "", name, verdict, element("td", "notes", movie.notes), game, ...cells, element("td", "judged", movie.judged));
  return movie.row;
}

// Whether a movie has the notes that are asked for.
function hasNotes(movie, notes) {
  return !notes || (notes === "none" ? movie.marks.length === 0 : movie.marks.includes(notes));
}

// Shows those that are asked for.
function show() {
  const began = performance.now();
  sort();
  const find = (asked.get("find") || "").toLowerCase();
  const verdict = asked.get("verdict") || "";
  const notes = asked.get("notes") || "";
  found = movies.filter((movie) => movie.text.includes(find) && (!verdict || movie.verdict === verdict) && hasNotes(movie, notes));
  form.all.hidden = found.length <= few;
  form.all.textContent = asked.has("all") ? `Show the first ${few}` : "Show all";
  table.classList.toggle("all", asked.has("all"));
  for (const body of [...table.tBodies]) body.remove();
  times += 1;
  add(0, times);
  table.dataset.milliseconds = Math.round(table.offsetHeight && performance.now() - began);
}

// Adds some of the movies that were found, from this one on, and the others after that, unless something else is asked meanwhile.
function add(from, asking) {
  if (asking !== times) return;
  const end = Math.min(from + few, found.length);
  for (let at = from; at < end; at += group) table.append(element("tbody", "", ...found.slice(at, Math.min(at + group, end)).map(rowOf)));
  const isWhole = end === found.length;
  if (from === 0 || isWhole) form.querySelector("output").value = `${found.length} of ${movies.length} movies${isWhole ? "" : `, the first ${end} shown`}`;
  if (asked.has("all") && !isWhole) requestAnimationFrame(() => add(end, asking));
}

// Puts what is asked into the address, and shows it.
function ask(name, value) {
  if (value) asked.set(name, value);
  else asked.delete(name);
  try {
    history.replaceState(null, "", `#${asked}`);
  } catch {
    // (a browser may refuse the hundredth change of a minute; the table changes all the same)
  }
  show();
}

function readAddress() {
  asked = new URLSearchParams(location.hash.slice(1));
  form.find.value = asked.get("find") || "";
  form.verdict.value = asked.get("verdict") || "";
  form.notes.value = asked.get("notes") || "";
  show();
}

// The movies that were found, all of them, as comma separated values. A name that a spreadsheet would take for a formula begins with ./
function csv() {
  const cell = (value) => (/[",\r\n]/.test(value) ? `"${String(value).replaceAll('"', '""')}"` : value);
  const name = (movie) => (/^[=+@-]/.test(movie.name) ? `./${movie.name}` : movie.name);
  const quoted = (text) => (/^[=+@-]/.test(text) ? `'${text}` : text);
  const columns = ["name", "verdict", "notes", "game", "md5", "time", "frames", "checkpoints", "judged", "page", "reason"];
  const shown = (movie) => ({ ...movie, name: name(movie), game: quoted(movie.game), page: `movies/${movie.page}.html`, reason: quoted(movie.reason) });
  const line = (movie) => columns.map((column) => cell(shown(movie)[column]));
  return [columns, ...found.map(line)].map((cells) => `${cells.join(",")}\r\n`).join("");
}

for (const head of heads) {
  const button = element("button", "", ...head.childNodes);
  button.type = "button";
  button.addEventListener("click", () => {
    asked.set("order", head.getAttribute("aria-sort") === "ascending" ? "descending" : "ascending");
    ask("sort", head.id);
  });
  head.append(button);
}
form.find.addEventListener("input", () => ask("find", form.find.value));
for (const name of ["verdict", "notes"]) form[name].addEventListener("change", () => ask(name, form[name].value));
form.all.addEventListener("click", () => ask("all", asked.has("all") ? "" : "yes"));
form.csv.addEventListener("click", () => {
  const link = element("a", "");
  link.href = URL.createObjectURL(new Blob([csv()], { type: "text/csv" }));
  link.download = "movies.csv";
  link.click();
  URL.revokeObjectURL(link.href);
});
form.addEventListener("submit", (event) => event.preventDefault());
form.hidden = false;
table.hidden = false;
addEventListener("hashchange", readAddress);
readAddress();
