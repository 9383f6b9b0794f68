// What the tests evaluate in the page, beside the page's own script.
const as_text = (bytes) => { let text = ""; for (let i = 0; i < bytes.length; i += 32768) text += String.fromCharCode(...bytes.subarray(i, i + 32768)); return btoa(text); };
const as_bytes = (text) => Uint8Array.from(atob(text), (letter) => letter.charCodeAt(0));
const kept_text = async (name) => as_text(new Uint8Array(await (await ask("text", { name })).blob.arrayBuffer()));

// The texts of each of many files, by their names.
async function many(names, inputs) {
  const answers = [];
  for (const input of inputs) {
    await ask("answers", { files: [new File([as_bytes(input)], "messages")] });
    const texts = [];
    for (const name of names) texts.push(await kept_text(name));
    answers.push(texts);
  }
  return answers;
}

// The report on a list, or the code and the place of its fault, and of a list what is wrong with it.
const fault_in = ({ code, place, faults = [] }) => [code, place, ...faults.map(({ name }) => name)];
const report_on = (bank, day, list) => ask("report", { bank, day, list: new File([as_bytes(list)], "list") }).then(() => kept_text("report"), fault_in);

// Starts the worker anew. It takes a file in pieces of so many bytes.
async function start_with(piece) {
  const part = at("worker"), source = part.textContent, found = /PIECE = 1 << 26;/;
  if (!found.test(source)) throw new Error("the worker has no such pieces");
  worker.terminate();
  part.textContent = source.replace(found, `PIECE = ${piece};`);
  start();
  part.textContent = source;
  await ask("core", { bytes: as_bytes(at("core").textContent.trim()) });
}

// Notes what the page searches for from now on.
function watch_searches() {
  const post = worker.postMessage.bind(worker);
  window.searched = [];
  worker.postMessage = (asked) => { if (asked.ask === "known") searched.push(asked.search); post(asked); };
}

// Types a text into the field of the search, a letter at a time and without a pause.
function type_search(text) {
  for (const letter of text) { at("search").value += letter; at("search").dispatchEvent(new Event("input")); }
}

// Gives the worker the module with another maximum of its memory, in pages of 64 KiB. In the section of memories (5) the maximum follows
// the count, the flags and the minimum, in groups of 7 bits, the lowest first.
async function limit_memory(pages) {
  const bytes = as_bytes(at("core").textContent.trim());
  const number_at = (place) => { let value = 0, unit = 1, byte; do { byte = bytes[place]; value += (byte & 127) * unit; unit *= 128; place += 1; } while (byte & 128); return [value, place]; };
  for (let place = 8; place < bytes.length;) {
    const [size, body] = number_at(place + 1);
    if (bytes[place] === 5) {
      const [, from] = number_at(body + 2), [, to] = number_at(from);
      for (let left = pages ?? number_at(from)[0], here = from; here < to; here += 1) { bytes[here] = left % 128 | (here + 1 < to ? 128 : 0); left = Math.floor(left / 128); }
    }
    place = body + size;
  }
  await ask("core", { bytes });
}

// Notes what the bar of progress shows from now on: a part of the whole, or null while it is not known.
function watch_progress() {
  const bar = at("progress");
  window.progress_seen = [];
  new MutationObserver(() => progress_seen.push(bar.hasAttribute("value") ? bar.value : null)).observe(bar, { attributes: true, attributeFilter: ["value"] });
}

// How bright a color is, and what is behind an element, as the guidelines for accessible content define contrast.
const color_of = (text) => text.match(/[\d.]+/g).map(Number);
const brightness = ([...color]) => color.slice(0, 3).map((part) => part / 255).map((part) => part <= 0.03928 ? part / 12.92 : ((part + 0.055) / 1.055) ** 2.4)
  .reduce((sum, part, place) => sum + part * [0.2126, 0.7152, 0.0722][place], 0);
function behind(element) {
  for (let one = element; one; one = one.parentElement) { const color = color_of(getComputedStyle(one).backgroundColor); if (color.length === 3 || color[3] === 1) return color; }
  return matchMedia("(prefers-color-scheme: dark)").matches ? [0, 0, 0] : [255, 255, 255];
}

// The texts that are hard to read: those with a contrast below 4.5, but for buttons that cannot be pressed.
function hard_to_read() {
  const has_text = (one) => [...one.childNodes].some((part) => part.nodeType === 3 && part.data.trim()) || one.matches("input, select");
  return [...document.querySelectorAll("body *")].filter((one) => has_text(one) && one.checkVisibility() && !one.closest(":disabled")).map((one) => {
    const [bright, dim] = [brightness(color_of(getComputedStyle(one).color)), brightness(behind(one))].sort((a, b) => b - a);
    return [(bright + 0.05) / (dim + 0.05), one.textContent.trim().slice(0, 40)];
  }).filter(([contrast]) => contrast < 4.5);
}

// Tries every kind of connection to an address. What each gives does not matter: the server must see nothing.
async function connect(address) {
  const tried = [() => fetch(address + "fetch"), () => { const x = new XMLHttpRequest(); x.open("POST", address + "xhr"); x.send("x"); }, () => { new Image().src = address + "image"; },
    () => navigator.sendBeacon(address + "beacon", "x"), () => new WebSocket(address.replace("http", "ws") + "socket"), () => new EventSource(address + "events"),
    () => document.body.append(made("iframe", "", { src: address + "frame" })), () => document.head.append(made("link", "", { rel: "stylesheet", href: address + "style" })),
    () => document.head.append(made("script", "", { src: address + "script" })), () => import(address + "module.js"), () => new Worker(address + "worker.js"),
    () => { const form = made("form", "", { action: address + "form", method: "post" }); document.body.append(form); form.submit(); },
    () => document.body.append(made("object", "", { data: address + "object" })), () => document.body.append(made("video", "", { src: address + "video" })),
    () => document.head.append(made("link", "", { rel: "prefetch", href: address + "prefetch" }))];
  for (const one of tried) { try { await Promise.race([one(), new Promise((kept) => setTimeout(kept, 300))]); } catch { /* refused */ } }
  await new Promise((kept) => setTimeout(kept, 1000));
  return tried.length;
}
