// Requests, links, and files.

const ROOM = 4 * 2 ** 20;
const LONGEST_LINK = 24000;
// The laws that have a share of negative or missing bonds.
const SHARED = ["negative", "diluted"];

async function ask(name, given) {
  const body = JSON.stringify(given);
  if (new Blob([body]).size > ROOM) throw new Error("the instance is too large for a request (at most 4 MiB)");
  let reply;
  try {
    reply = await fetch(`api/${name}`, { method: "POST", headers: { "Content-Type": "application/json" }, body });
  } catch {
    throw new Error("the server does not answer: is it still running?");
  }
  const found = await reply.json();
  if (!reply.ok) throw new Error(found.error);
  return found;
}

function download(name, content, type) {
  const link = document.createElement("a");
  link.href = URL.createObjectURL(content instanceof Blob ? content : new Blob([content], { type }));
  link.download = name;
  link.click();
  setTimeout(() => URL.revokeObjectURL(link.href), 1000);
}

async function through(stream, bytes) {
  return new Uint8Array(await new Response(new Blob([bytes]).stream().pipeThrough(stream)).arrayBuffer());
}

// A text in letters that a link may have.
async function packed(text) {
  const bytes = await through(new CompressionStream("deflate-raw"), new TextEncoder().encode(text));
  let letters = "";
  for (const byte of bytes) letters += String.fromCharCode(byte);
  return btoa(letters).replaceAll("+", "-").replaceAll("/", "_").replaceAll("=", "");
}

async function unpacked(letters) {
  const plain = atob(letters.replaceAll("-", "+").replaceAll("_", "/"));
  const bytes = Uint8Array.from(plain, (letter) => letter.charCodeAt(0));
  return new TextDecoder().decode(await through(new DecompressionStream("deflate-raw"), bytes));
}

// The state behind the # of the address: how the instance came to be, the couplings that were changed, and
// what is shown.
async function fragmentOf(world, edits, shown) {
  const { source } = world, members = new URLSearchParams();
  if (source.law) {
    for (const name of ["kind", "rows", "cols", "law", "seed"]) members.set(name, source[name]);
    if (SHARED.includes(source.law)) members.set("share", source.share);
  } else {
    members.set("name", source.name);
    members.set("data", await packed(source.text));
  }
  if (edits.size) members.set("edits", [...edits].map(([bond, coupling]) => `${bond}_${coupling}`).join("."));
  for (const [name, value] of Object.entries(shown)) members.set(name, value);
  return members.toString();
}

// What such a text says, as a source, edits, and what is shown.
async function stateOf(fragment) {
  const members = new URLSearchParams(fragment.replace(/^.*#/, ""));
  const number = (name, usual) => (/^\d{1,7}$/.test(members.get(name) || "") ? Number(members.get(name)) : usual);
  const edits = new Map();
  for (const entry of (members.get("edits") || "").split(".").filter(Boolean)) {
    const parts = entry.match(/^(\d{1,7})_(-?\d{1,16})$/);
    if (!parts) throw new Error(`the link has an edit that cannot be read: ${entry}`);
    edits.set(Number(parts[1]), Number(parts[2]));
  }
  const source = members.has("data")
    ? { name: members.get("name") || "a link", text: await unpacked(members.get("data")) }
    : {
        kind: members.get("kind") || "square",
        rows: number("rows", 8),
        cols: number("cols", 8),
        law: members.get("law") || "pm",
        seed: members.get("seed") || "5",
        share: number("share", 500),
      };
  const [bond, force, steps] = ["bond", "force", "steps"].map((name) => number(name, -1));
  return { source, edits, view: members.get("view") || "ground", bond, force, steps };
}

async function worldOf(source) {
  const found = source.law ? await ask("draw", source) : await ask("open", { text: source.text });
  return new World(source, found);
}
