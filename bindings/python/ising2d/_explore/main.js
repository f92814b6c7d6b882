// Links, files, forms, keys and the pointer.

async function link() {
  const members = { view: app.view };
  if (app.selected >= 0) members.bond = app.selected;
  if (app.droplet) members.force = app.droplet.bond;
  if (app.proof && app.steps < app.proof.entries.length) members.steps = app.steps;
  return fragmentOf(app.world, app.edits, members);
}

let keeping = 0;
async function keepLink() {
  const own = ++keeping, fragment = await link();
  if (own !== keeping) return;
  app.fragment = fragment;
  if (fragment.length <= LONGEST_LINK) history.replaceState(null, "", `#${fragment}`);
}

async function copyLink() {
  const fragment = await link();
  if (fragment.length > LONGEST_LINK) {
    throw new Error("the instance is too large for a link: take it away as JSON, and open the file");
  }
  const text = `${location.origin}${location.pathname}#${fragment}`;
  try {
    await navigator.clipboard.writeText(text);
    say("The link is copied. After the server has stopped, open it by: ising2d-py explore LINK");
  } catch {
    say("The link is the address of this page.");
  }
}

async function restore(fragment) {
  const state = await stateOf(fragment);
  const known = document.querySelector(`[name="view"][value="${CSS.escape(state.view)}"]`);
  if (known) {
    app.view = known.value;
    known.checked = true;
  }
  await open(state.source, state.edits, !app.world);
  if (state.steps >= 0 && app.proof) step(state.steps);
  if (state.bond >= 0 && state.bond < app.world.bonds) select(state.bond);
  if (state.force >= 0 && state.force < app.world.bonds) await force(state.force);
}

// The whole picture with its legend, drawn by a pen that is made for its size.
function whole(penOf) {
  const { world } = app, margin = 26;
  const cell = Math.max(9, Math.min(48, 900 / Math.max(world.wide, world.high, 1)));
  const wide = Math.max(420, world.wide * cell + 2 * margin), picture = world.high * cell + 2 * margin;
  const frame = { scale: cell, x: (wide - world.wide * cell) / 2 - world.left * cell, y: margin - world.top * cell };
  const entries = new Scene(new SvgPen(1, 1), frame, [wide, picture], shown()).draw();
  const places = [];
  let [x, y] = [14, picture + 8];
  for (const { text } of entries) {
    const room = 44 + 6.4 * text.length;
    if (x > 14 && x + room > wide) [x, y] = [14, y + 20];
    places.push([x, y]);
    x += room;
  }
  const selected = app.droplet ? app.selected : -1;
  const pen = penOf(wide, y + 20), scene = new Scene(pen, frame, [wide, picture], { ...shown(), selected });
  scene.draw();
  entries.forEach(({ text, sample }, i) => {
    sample(scene, places[i][0] + 12, places[i][1]);
    scene.set({ fillStyle: BLACK, font: "11px sans-serif", textAlign: "start" });
    pen.fillText(text, places[i][0] + 30, places[i][1] + 4);
  });
  return pen;
}

const wholeSvg = () => whole((wide, high) => new SvgPen(wide, high));

function savePng() {
  const canvas = document.createElement("canvas");
  whole((wide, high) => {
    [canvas.width, canvas.height] = [2 * wide, 2 * high];
    const pen = canvas.getContext("2d");
    pen.scale(2, 2);
    pen.fillStyle = "#FFFFFF";
    pen.fillRect(0, 0, wide, high);
    return pen;
  });
  canvas.toBlob((blob) => download("instance.png", blob));
}

async function take(form) {
  const { name, text } = await ask("export", { instance: instance(), form });
  download(name, text, "text/plain");
  say(`${name} is saved.`);
}

// The form of the instance.

function showSource() {
  const { source } = app.world;
  if (!source.law) return;
  for (const name of ["kind", "rows", "cols", "law", "seed"]) id(name).value = source[name];
  id("share").value = source.share;
  showShare();
}

function showShare() {
  id("share-row").hidden = !SHARED.includes(id("law").value);
  id("share-shown").textContent = (id("share").value / 1000).toFixed(3).replace(/0+$/, "").replace(/\.$/, "");
  id("cols").min = { hexagonal: 2, cylinder: 3 }[id("kind").value] || 1;
}

function sourceOfForm() {
  const whole = (name) => Number(id(name).value);
  const [kind, law, seed] = ["kind", "law", "seed"].map((name) => id(name).value);
  return { kind, rows: whole("rows"), cols: whole("cols"), law, seed, share: whole("share") };
}

function nextSeed() {
  id("seed").value = String((BigInt(id("seed").value || "0") + 1n) % 2n ** 64n);
  guarded(() => open(sourceOfForm()));
}

function editSize() {
  if (app.selected < 0) return;
  id("size").hidden = false;
  id("size-value").value = app.couplings[app.selected] / app.world.unit;
  id("size-value").focus();
  id("size-value").select();
}

function setSize() {
  const value = Number(id("size-value").value.replace("−", "-")) * app.world.unit, isWhole = app.world.unit === 1;
  if (!Number.isFinite(value) || (isWhole && !Number.isInteger(value))) {
    throw new Error(`a coupling is a ${isWhole ? "whole " : ""}number`);
  }
  if (Math.abs(value) > 2 ** 43) throw new Error("a coupling is at most 2^43 in size");
  id("size").hidden = true;
  set(app.selected, Math.round(value));
  id("picture").focus();
}

// Events.

function act(bond) {
  const mode = document.querySelector('[name="mode"]:checked').value;
  select(bond);
  if (mode === "flip") flip(bond);
  if (mode === "force") guarded(() => force(bond));
}

const KEYS = {
  Enter: () => app.selected >= 0 && act(app.selected),
  " ": () => app.selected >= 0 && act(app.selected),
  f: () => flip(app.selected),
  c: () => guarded(() => force(app.selected)),
  e: editSize,
  n: nextSeed,
  u: undo,
  r: redo,
  "+": () => zoom(1.25),
  "=": () => zoom(1.25),
  "-": () => zoom(0.8),
  0: fit,
  "[": () => step(app.steps - 1),
  "]": () => step(app.steps + 1),
  "?": () => id("help").showModal(),
  Escape: drop,
};
const ARROWS = { ArrowLeft: [-1, 0], ArrowRight: [1, 0], ArrowUp: [0, -1], ArrowDown: [0, 1] };

function drop() {
  if (app.droplet) app.droplet = null;
  else if (app.turned && app.turned.size) app.turned = new Set();
  else app.selected = -1;
  showBond();
  paint();
  keepLink();
}

function pressed(event) {
  if (event.ctrlKey || event.metaKey || event.altKey || !app.answer) return;
  const views = [...document.querySelectorAll('[name="view"]')], arrow = ARROWS[event.key];
  const key = event.key.length === 1 ? event.key.toLowerCase() : event.key;
  if (arrow && event.shiftKey) move(-60 * arrow[0], -60 * arrow[1]);
  else if (arrow) {
    select(app.world.towards(app.selected, ...arrow));
    if (app.selected >= 0) reveal(app.selected);
  } else if (/^[1-6]$/.test(key)) {
    if (!views[key - 1].disabled) views[key - 1].click();
  } else if (KEYS[key]) KEYS[key]();
  else return;
  event.preventDefault();
}

function pointerPlace(event) {
  const edge = id("picture").getBoundingClientRect(), { frame } = app;
  const [x, y] = [event.clientX - edge.left, event.clientY - edge.top];
  return { x, y, found: app.world.nearest((x - frame.x) / frame.scale, (y - frame.y) / frame.scale) };
}

function listenToPointer() {
  const canvas = id("picture"), down = { x: 0, y: 0, isOn: false, isMoved: false };
  canvas.addEventListener("pointerdown", (event) => {
    Object.assign(down, { x: event.clientX, y: event.clientY, isOn: true, isMoved: false });
    canvas.setPointerCapture(event.pointerId);
    canvas.focus({ preventScroll: true });
  });
  canvas.addEventListener("pointermove", (event) => {
    if (!down.isOn || !app.world) return;
    const [right, low] = [event.clientX - down.x, event.clientY - down.y];
    if (!down.isMoved && Math.hypot(right, low) < 5) return;
    Object.assign(down, { x: event.clientX, y: event.clientY, isMoved: true });
    canvas.classList.add("moving");
    move(right, low);
  });
  canvas.addEventListener("pointerup", (event) => {
    const isClick = down.isOn && !down.isMoved;
    down.isOn = false;
    canvas.classList.remove("moving");
    if (!isClick || !app.answer) return;
    const { found } = pointerPlace(event);
    if (found.bond < 0 || found.far * app.frame.scale > Math.max(8, 0.3 * app.frame.scale)) return;
    if (event.shiftKey) {
      select(found.bond);
      editSize();
    } else act(found.bond);
  });
  canvas.addEventListener("wheel", (event) => {
    event.preventDefault();
    const { x, y } = pointerPlace(event);
    zoom(Math.exp(-event.deltaY * 0.0015), x, y);
  }, { passive: false });
}

function listenToEntries() {
  const list = id("entries"), placeOf = (event) => {
    const entry = event.target.closest("li[id]");
    return entry ? Number(entry.id.slice(6)) : -1;
  };
  list.addEventListener("mousemove", (event) => {
    const place = placeOf(event);
    if (place >= 0 && place !== app.pointed) point(place);
  });
  list.addEventListener("mouseleave", () => point(-1));
  list.addEventListener("click", (event) => app.proof && placeOf(event) >= 0 && step(placeOf(event) + 1));
  list.addEventListener("keydown", (event) => {
    const most = list.querySelectorAll("li[id]").length - 1;
    const to = { ArrowDown: app.pointed + 1, ArrowUp: app.pointed - 1, Home: 0, End: most }[event.key];
    if (to !== undefined) point(Math.max(0, Math.min(most, to)));
    else if (event.key === "Enter" && app.proof && app.pointed >= 0) step(app.pointed + 1);
    else if (event.key === "Escape") point(-1);
    else return;
    event.preventDefault();
  });
}

function listenToForms() {
  id("draw").addEventListener("submit", (event) => {
    event.preventDefault();
    guarded(() => open(sourceOfForm()));
  });
  for (const name of ["law", "kind", "share"]) id(name).addEventListener("input", showShare);
  id("next-seed").addEventListener("click", nextSeed);
  id("file-open").addEventListener("click", () => id("file").click());
  id("file").addEventListener("change", () => id("file").files.length && openFile(id("file").files[0]));
  id("link").addEventListener("keydown", (event) => {
    if (event.key === "Enter") guarded(() => restore(id("link").value.trim()));
  });
  id("size").addEventListener("submit", (event) => {
    event.preventDefault();
    guarded(async () => setSize());
  });
  const hideSize = () => {
    id("size").hidden = true;
    id("picture").focus();
  };
  id("size-cancel").addEventListener("click", hideSize);
  id("size-value").addEventListener("keydown", (event) => event.key === "Escape" && hideSize());
}

function openFile(file) {
  guarded(async () => {
    await open({ name: file.name, text: await file.text() });
    id("file").value = "";
  });
}

function listenToButtons() {
  const clicks = {
    undo,
    redo,
    keys: () => id("help").showModal(),
    "zoom-in": () => zoom(1.25),
    "zoom-out": () => zoom(0.8),
    "zoom-fit": fit,
    "bond-flip": () => flip(app.selected),
    "bond-force": () => guarded(() => force(app.selected)),
    "bond-set": editSize,
    "step-back": () => step(app.steps - 1),
    "step-on": () => step(app.steps + 1),
    "save-png": savePng,
    "save-svg": () => download("instance.svg", wholeSvg().text(), "image/svg+xml"),
    "copy-link": () => guarded(copyLink),
  };
  for (const [name, action] of Object.entries(clicks)) id(name).addEventListener("click", action);
  for (const button of document.querySelectorAll("[data-form]")) {
    button.addEventListener("click", () => guarded(() => take(button.dataset.form)));
  }
  for (const choice of document.querySelectorAll('[name="view"]')) {
    choice.addEventListener("change", () => {
      Object.assign(app, { view: choice.value, proof: null, steps: -1, pointed: -1 });
      guarded(refresh);
    });
  }
  for (const choice of document.querySelectorAll('[id^="show-"]')) choice.addEventListener("change", paint);
  id("steps").addEventListener("input", () => step(Number(id("steps").value)));
}

function listenToWindow() {
  document.addEventListener("keydown", (event) => {
    const key = event.key.toLowerCase(), isText = /^(text|)$/.test(event.target.type ?? "none");
    if (!(event.ctrlKey || event.metaKey) || isText) return;
    if (key === "z" && !event.shiftKey) undo();
    else if (key === "y" || key === "z") redo();
    else return;
    event.preventDefault();
  });
  new ResizeObserver(paint).observe(id("frame"));
  addEventListener("hashchange", () => {
    if (location.hash.slice(1) !== app.fragment) guarded(() => restore(location.hash));
  });
  addEventListener("beforeprint", () => id("print").replaceChildren(wholeSvg().element()));
  addEventListener("afterprint", () => id("print").replaceChildren());
  document.addEventListener("dragover", (event) => event.preventDefault());
  document.addEventListener("drop", (event) => {
    event.preventDefault();
    if (event.dataTransfer.files.length) openFile(event.dataTransfer.files[0]);
  });
}

async function begin() {
  if (location.hash.length > 1) return restore(location.hash);
  const { name, text } = await ask("start", {});
  return open(text ? { name, text } : sourceOfForm(), new Map(), true);
}

id("picture").addEventListener("keydown", pressed);
listenToPointer();
listenToEntries();
listenToForms();
listenToButtons();
listenToWindow();
showShare();
guarded(begin);
