// The page: it asks the worker, and shows what it answers.
const at = (id) => document.getElementById(id);
const CODES = JSON.parse(at("codes").textContent);
const MEANINGS = JSON.parse(at("meanings").textContent); // of each table, the color and the remedy of each word
const ROWS = 500;
const PAUSE = 250; // milliseconds without a key, after which a search begins
const TABLES = ["report", "transfers", "findings", "recalls", "totals", "refused"];
// of each table, the columns with words, each with the table of their meanings. In a report the result alone has a color: the statuses of
// the list and of the messages are compared there.
const WORDED = { report: { 2: "report", 4: "transfers", 6: "transfers" }, transfers: { 2: "transfers" }, findings: { 2: "findings" }, recalls: { 3: "recalls" } };
const PLAIN = { report: [4, 6] };
const NUMBERS = { totals: [1, 2, 3, 4, 5, 6, 7, 8, 9, 10], report: [3, 5], refused: [0, 1] };
// what a clerk knows a transfer by, after the columns of each table that names one
const KNOWN = { report: ["day", "payee", "identification"], transfers: ["amount", "day", "payer", "payee", "identification"],
  findings: ["amount", "day", "payee", "identification"], recalls: ["amount", "day", "payee", "identification"] };
// the columns with numbers, statuses and results, which each language writes in its own way
const SPELLED = { report: [2, 3, 4, 5, 6], transfers: [2, 3], recalls: [3, 4], totals: NUMBERS.totals };
// the colors of this page alone: a bank looks at a transfer that was rejected, though the hub has nothing to do
const OWN_COLORS = { transfers: { REJECTED: "wait" } };
const ENGLISH = { refused: [2, 3, 4] }; // the columns with sentences of docs/users/codes.md
const NAMED = ["report", "transfers", "findings", "recalls"]; // the tables whose rows name a transfer
const AT = "56", WITHIN = ["36", "38"]; // the codes that a transaction's code follows, and those that a number says more of
const FILES = { status: "status.txt", totals: "totals.txt", refused: "refused.txt", report: "report.csv", archive: "archive.jsonl" };
const GROUPS = { en: ",", de: ".", fr: "\u202f" }, POINTS = { en: ".", de: ",", fr: "," };
const DAYS = { en: (year, month, day) => `${year}-${month}-${day}`, de: (year, month, day) => `${day}.${month}.${year}`, fr: (year, month, day) => `${day}/${month}/${year}` };
const LACKS = ["ONLY_IN_ARCHIVE", "MISSING"];
let words = WORDS.en;
let found = {}; // the tables, with their counts
let shown = { table: "transfers", from: 0, words: [] };
let busy = false, again = false; // whether files are read, and whether others were chosen meanwhile
let read = null; // the files of messages that are answered
let noted = () => ""; // the lines on the list that is answered
let summary = null; // the line on what was answered, in the words that are chosen
let typing; // the pause after a key
let fault = () => ""; // the line on what went wrong
let titled = null; // the lines above a report, in the words that are chosen

const said = (text, ...parts) => text.replace(/\{(\d)\}/g, (_, place) => parts[place]);
const language = () => document.documentElement.lang;
const counted = (number) => number.toLocaleString(language());
// A text of the program as the language writes it: an amount, a day, a status or a result. Any other stays.
const money = (text) => text.split(".")[0].replace(/\B(?=(?:\d{3})+$)/g, GROUPS[language()]) + POINTS[language()] + text.split(".")[1];
const day_text = (text) => DAYS[language()](...text.split("-"));
const label = (word) => LABELS[language()][word] ?? word;
function spelled(text) {
  if (/^\d+\.\d\d$/.test(text)) return money(text);
  if (/^\d+$/.test(text)) return counted(Number(text));
  return /^\d{4}-\d\d-\d\d$/.test(text) ? day_text(text) : label(text);
}
const made = (name, text, values = {}) => Object.assign(document.createElement(name), { textContent: text ?? "" }, values);

// ---- the worker

const waiting = new Map();
let worker, number = 0;

function start() {
  const code = new Blob([at("worker").textContent], { type: "text/javascript" });
  worker = new Worker(URL.createObjectURL(code));
  worker.onmessage = ({ data }) => {
    if (data.read !== undefined) { at("progress").value = data.read; return; }
    if (data.working) { at("progress").removeAttribute("value"); at("state").textContent = words.working; return; }
    const { kept, lost } = waiting.get(data.id);
    waiting.delete(data.id);
    if (data.fault) lost(data.fault); else kept(data.answer);
  };
}

function ask(name, parts = {}) {
  number += 1;
  const id = number;
  return new Promise((kept, lost) => { waiting.set(id, { kept, lost }); worker.postMessage({ ...parts, ask: name, id }); });
}

// ---- words

function spoken() {
  for (const part of document.querySelectorAll("[data-word]")) part.textContent = words[part.dataset.word];
  for (const part of document.querySelectorAll("[data-label]")) part.setAttribute("aria-label", words[part.dataset.label]);
  for (const part of document.querySelectorAll("[data-hint]")) part.placeholder = words[part.dataset.hint];
  at("fault").textContent = fault();
  at("notes").textContent = noted();
  at("unread").textContent = words.unread;
  at("unread").hidden = !words.unread;
  at("glossary-words").replaceChildren(...Object.keys(MEANINGS).flatMap(glossary_of));
  if (summary) { at("state").textContent = summary(); show(); }
}

// What a word of a table means, and what to do about it, in the language that is chosen.
const meaning = (table, word) => SENTENCES[document.documentElement.lang][table]?.[word]?.[0] ?? "";
const remedy_of = (table, word) => SENTENCES[document.documentElement.lang][table]?.[word]?.[1] ?? MEANINGS[table]?.[word]?.remedy ?? "";
const reason_of = (text) => REASONS[text?.replace(/\?$/, "")]?.[language()] ?? "";
const color_of_word = (table, word) => OWN_COLORS[table]?.[word] ?? MEANINGS[table]?.[word]?.color;

// The words of a table, each with what it means and what to do about it.
function glossary_of(table) {
  const list = made("dl");
  for (const word of Object.keys(MEANINGS[table])) {
    const about = made("dd", `${meaning(table, word)} ${said(words.remedy, word)} ${remedy_of(table, word)}`);
    list.append(made("dt", label(word) === word ? word : `${label(word)} (${word})`, { className: color_of_word(table, word) }), about);
  }
  return [made("h3", words[table]), list];
}

function speak(language) {
  words = WORDS[language] ?? WORDS.en;
  document.documentElement.lang = language in WORDS ? language : "en";
  at("language").value = document.documentElement.lang;
  spoken();
}

const in_lines = (...lines) => lines.filter(Boolean).join("\n");

// What is wrong with a list: a line for each of the first rows, and how many more there are.
const wrong_line = ({ name, about, hint }) => said(words[name], ...about) + (hint ? `: ${said(words[hint.name], ...hint.about)}` : "");
const wrong_lines = (file, faults, many) => in_lines(said(words.list_wrong, file), ...faults.map(wrong_line), many > faults.length ? said(words.list_more, counted(many - faults.length)) : "");

function fault_text({ code, place, text, changed, kind, file, faults, many }) {
  if (kind) return said(words["kind_" + kind], file);
  if (faults) return wrong_lines(at("list").files[0]?.name ?? "", faults, many);
  if (code === 65) return words.no_memory;
  if (code === 48) return said(words.wrong_list, place);
  if (code === 73) return place === 1 ? words.wrong_bank : /^\d{4}-\d\d-\d\d$/.test(day_in(at("day").value.trim())) ? said(words.no_day, at("day").value.trim()) : words.wrong_day;
  if (changed) return words.changed;
  return said(words.stopped, code ? `${code} ${CODES[code]?.[0] ?? ""}` : text);
}

function complain(line) {
  fault = line;
  at("fault").textContent = fault();
}

// ---- answers

// Answers the files that are chosen. Those that are chosen meanwhile are answered after them.
async function answer(event) {
  event?.preventDefault();
  again = true;
  if (busy) return;
  busy = true;
  document.body.dataset.done = "";
  while (again) { again = false; await answer_once(); }
  busy = false;
  document.body.dataset.done = "1";
}

async function answer_once() {
  const files = [...at("messages").files], [list] = at("list").files, bank = at("bank").value.trim().toUpperCase(), day = day_in(at("day").value.trim());
  complain(() => "");
  note(() => "");
  if (!files.length) { complain(() => words.no_messages); return; }
  at("compare").disabled = true; at("progress").hidden = false; at("progress").value = 0; at("answers").hidden = true;
  try {
    if (files.length !== read?.length || files.some((file, place) => file !== read[place])) await read_messages(files);
    delete found.report;
    shown = { table: "transfers", from: 0, words: [] };
    if (list && bank && day) await compare(bank, day, list);
    else if (list || bank || day) complain(() => words.need_both);
  } catch (reason) {
    complain(() => fault_text(reason));
    forget(reason.changed);
  }
  at("progress").hidden = true; at("compare").disabled = false;
  at("state").textContent = summary ? summary() : "";
  if (summary) { at("answers").hidden = false; await show(); }
}

// A day as the program reads it, of one as a clerk writes it: 10.03.2025 and 10/3/2025 are 2025-03-10.
function day_in(text) {
  const [, day, month, year] = /^(\d{1,2})[./](\d{1,2})[./](\d{4})$/.exec(text) ?? [];
  return year ? `${year}-${month.padStart(2, "0")}-${day.padStart(2, "0")}` : text;
}

// Forgets a file that changed, so that it can be chosen again, unless another was chosen meanwhile.
function forget(changed) {
  if (changed && !again) at(changed).value = "";
  if (changed === "messages") read = summary = null;
}

async function read_messages(files) {
  const names = files.map((file) => file.name).join(", "), size = files.reduce((sum, file) => sum + file.size, 0);
  read = summary = null;
  at("state").textContent = said(words.reading, names);
  const answered = await ask("answers", { files });
  found = answered.found;
  const seconds = () => (answered.milliseconds / 1000).toLocaleString(document.documentElement.lang, { maximumFractionDigits: 1 });
  summary = () => said(words.done, names, counted(size), seconds(), counted(found.transfers.rows), counted(found.refused.rows));
  read = files;
}

function note(lines) {
  noted = lines;
  at("notes").textContent = noted();
}

// A line on how a list was read that the program does not read as it is, or nothing.
function line_on_list(name, had) {
  const parts = Object.keys(had).filter((part) => had[part]).map((part) => said(words["had_" + part], had[part]));
  return parts.length ? said(words.list_had, name, parts.join(", ")) : "";
}

// Lines on the rows of a list.
const lines_on_rows = (rows, many) => [...rows.map((row) => said(words[row.name], ...row.about)), many > rows.length ? said(words.more_rows, counted(many - rows.length)) : ""];

async function compare(bank, day, list) {
  at("state").textContent = said(words.reading, list.name);
  const { found: answered, rows, many, forbids, read: had } = await ask("report", { bank, day, list });
  if (forbids) {
    note(() => line_on_list(list.name, had));
    complain(() => in_lines(said(words.no_report, list.name), ...lines_on_rows(rows, many)));
    return;
  }
  note(() => in_lines(line_on_list(list.name, had), ...lines_on_rows(rows, many)));
  found.report = answered.report;
  shown.table = "report";
  const made_on = new Date(), names = read.map((file) => file.name).join(", ");
  titled = () => [said(words.report_of, bank, day_text(day)), said(words.report_list, list.name, names, made_on.toLocaleString(language(), { dateStyle: "long", timeStyle: "short" }))];
}

function save_as(name, blob) {
  const link = made("a", "", { href: URL.createObjectURL(blob), download: name });
  link.click();
  URL.revokeObjectURL(link.href);
}

async function save(name) {
  try {
    save_as(FILES[name], (await ask("text", { name })).blob);
  } catch (reason) { complain(() => fault_text(reason)); }
}

// The report as Excel opens it in the language: with its separator, its decimal sign and its words. A bank and an identification are
// formulas that are texts, so that Excel changes neither 0012 nor 1E5, and runs none.
async function for_excel() {
  const { rows } = await ask("rows", { table: "report", from: 0, words: [], search: "", bank: "", count: Infinity });
  const point = POINTS[language()], separator = point === "," ? ";" : ",", as_text = (text) => `"=""${text}"""`;
  const row = ([bank, transfer, ...fields]) => [as_text(bank), as_text(transfer), ...fields.map((text) => label(text).replace(/^(\d+)\.(\d\d)$/, `$1${point}$2`))];
  const lines = [words.heads.report.slice(0, -1), ...rows.map(row)].map((fields) => fields.join(separator) + "\r\n");
  return "\ufeff" + lines.join("");
}

async function save_for_excel() {
  try {
    save_as(words.excel_file, new Blob([await for_excel()], { type: "text/csv" }));
  } catch (reason) { complain(() => fault_text(reason)); }
}

// ---- what is shown

// Replaces the parts of a box. The part that has the focus is followed by the one in its place.
function replace(box, parts) {
  const place = [...box.children].indexOf(document.activeElement);
  box.replaceChildren(...parts);
  if (place >= 0) box.children[Math.min(place, parts.length - 1)]?.focus();
}

function show_bars() {
  const { counts } = found[shown.table], most = Math.max(1, ...Object.values(counts));
  replace(at("bars"), (shown.table === "refused" ? [] : Object.entries(counts).sort(([, a], [, b]) => b - a)).map(([word, count]) => {
    const is_chosen = shown.words.length === 1 && shown.words[0] === word;
    const bar = made("button", "", { type: "button", value: word, onclick: () => choose(is_chosen ? [] : [word]) });
    const line = made("i", "", { className: color_of_word(shown.table, word) ?? "wait" });
    line.style.width = `${100 * count / most}%`;
    bar.setAttribute("aria-pressed", String(is_chosen));
    bar.append(made("span", label(word)), line, made("b", counted(count)), made("small", meaning(shown.table, word)));
    return bar;
  }));
}

function show_choices() {
  const button = (name) => {
    const made_button = made("button", `${words[name]} (${counted(found[name].rows)})`, { type: "button", onclick: () => turn(name) });
    made_button.setAttribute("aria-pressed", String(shown.table === name));
    return made_button;
  };
  replace(at("tables"), TABLES.filter((name) => found[name]).map(button));
  replace(at("saves"), [...Object.keys(FILES).filter((name) => name !== "report" || found.report)
    .map((name) => made("button", said(words.save, FILES[name]), { type: "button", onclick: () => save(name) })),
    ...(found.report ? [made("button", said(words.save_excel, words.excel_file), { type: "button", onclick: save_for_excel })] : [])]);
  const { counts } = found[shown.table], kinds = Object.keys(counts).sort();
  at("filter-word").replaceChildren(made("option", words.all, { value: "" }), ...kinds.map((word) => made("option", `${label(word)} (${counted(counts[word])})`, { value: word })));
  at("filter-word").value = shown.words.length === 1 ? shown.words[0] : "";
  at("word-box").hidden = kinds.length === 0;
  at("bank-box").hidden = shown.table === "refused";
  at("lacks").hidden = shown.table !== "report";
  at("lacks").setAttribute("aria-pressed", String(shown.words === LACKS));
}

// The name of a refusal, its cause and its remedy. 36 and 38 have those of the number at their end, and 56 those of what follows it.
function refusal_of(code, place) {
  const [, inner, more] = code === AT ? /^\d+ (\d+) ?(.*)$/s.exec(place) : ["", code, place];
  const detail = WITHIN.includes(inner) ? CODES[/\d+$/.exec(more)?.[0]] : undefined, known = CODES[inner] ?? ["", "", ""];
  const names = [code === AT ? CODES[AT][0] : "", known[0], detail?.[0]].filter(Boolean);
  return [names.join(": "), ...(detail ?? known).slice(1)];
}

// The heads of a table's columns, with those by which a clerk knows a transfer before the last one.
const heads_of = (table) => KNOWN[table] ? [...words.heads[table].slice(0, -1), ...KNOWN[table].map((name) => words.known[name]), ""] : words.heads[table];
// What a column says of a transfer that a clerk knows it by, if it does.
const known_name = (table, place) => KNOWN[table]?.[place - words.heads[table].length + 1];
// Whether a column has numbers.
const is_number = (table, place) => (NUMBERS[table] ?? []).includes(place) || known_name(table, place) === "amount";

// Whether a language writes a column in its own way.
const is_spelled = (table, place) => SPELLED[table]?.includes(place) || ["amount", "day"].includes(known_name(table, place));

// The cells of a row. A refused line of several files has the name of its file, and its line there.
function cells_of(table, fields, known) {
  if (KNOWN[table]) return [...fields, ...Array(words.heads[table].length - 1 - fields.length).fill(""), ...KNOWN[table].map((name) => known[name])];
  if (table !== "refused") return fields;
  const [number, code, place, file, line, text] = fields;
  return [read.length > 1 ? `${file}: ${line}` : number, code, ...refusal_of(code, place), place, text];
}

// A button that shows the messages on a transfer.
function button_on(bank, transfer) {
  const button = made("button", words.show, { type: "button", onclick: () => show_messages(bank, transfer) });
  button.setAttribute("aria-label", said(words.messages_on, bank, transfer));
  return button;
}

function row_of(table, fields, known) {
  const row = made("tr"), cells = cells_of(table, fields, known), heads = heads_of(table);
  heads.forEach((_, place) => {
    const word = cells[place] ?? "", its_table = WORDED[table]?.[place];
    const cell = made("td", is_spelled(table, place) ? spelled(word) : word);
    if (is_number(table, place)) cell.className = "number";
    else if (known_name(table, place) === "day") cell.className = "day";
    else if (!PLAIN[table]?.includes(place)) cell.className = color_of_word(its_table, word) ?? "";
    cell.title = meaning(its_table, word) || reason_of(word);
    cell.dataset.head = heads[place];
    if (ENGLISH[table]?.includes(place)) cell.lang = "en";
    if (table === "refused" && place === heads.length - 1) cell.className = "line";
    if (NAMED.includes(table) && place === heads.length - 1) cell.append(button_on(fields[0], fields[1]));
    row.append(cell);
  });
  return row;
}

// What to do about the word whose rows are shown.
function show_remedy() {
  const [word] = shown.words, remedy = remedy_of(shown.table, word);
  at("remedy").hidden = shown.words.length !== 1 || !remedy;
  at("remedy").firstElementChild.textContent = said(words.remedy, word && label(word));
  at("remedy").lastElementChild.textContent = remedy;
}

async function show() {
  try {
    await show_rows();
  } catch (reason) { complain(() => fault_text(reason)); }
  if (summary && !busy) at("state").textContent = summary();
}

async function show_rows() {
  show_bars(); show_choices(); show_remedy();
  const { table, from } = shown;
  const { rows, matched, known } = await ask("known", { ...shown, search: at("search").value, bank: at("filter-bank").value.trim().toUpperCase(), count: ROWS });
  const heads = made("tr");
  heads_of(table).forEach((head, place) => {
    const cell = made("th", head, { scope: "col", className: is_number(table, place) ? "number" : "" });
    if (!head) cell.setAttribute("aria-label", words.show);
    heads.append(cell);
  });
  at("rows").tHead.replaceChildren(heads);
  at("rows").tBodies[0].replaceChildren(...rows.map((fields, place) => row_of(table, fields, known[place])));
  at("caption").textContent = words[table];
  at("report-head").hidden = table !== "report";
  if (table === "report") [...at("report-head").children].forEach((part, place) => { part.textContent = titled()[place]; });
  at("matched").textContent = matched ? said(words.matched, counted(matched), counted(from + 1), counted(from + rows.length)) : words.nothing;
  at("before").disabled = from === 0; at("after").disabled = from + rows.length >= matched;
}

const turn = (table) => { shown = { table, from: 0, words: [] }; show(); };
const choose = (chosen) => { shown.words = chosen; shown.from = 0; show(); };
const page = (step) => { shown.from = Math.max(0, shown.from + step * ROWS); show(); };

// Searches when the typist pauses, unless another file is read by then.
function search() {
  clearTimeout(typing);
  typing = setTimeout(() => { shown.from = 0; if (summary) show(); }, PAUSE);
}

// ---- one transfer

// What a message says of a transfer: its answer, the recall, the reason and the amount.
function content_of(message, bank, transfer) {
  const parts = (message.TxInf ?? [message]).filter((part) => part.DbtrAgt === bank && (part.TxId ?? part.OrgnlTxId) === transfer);
  return parts.map((part) => {
    const amount = part.IntrBkSttlmAmt ?? part.RtrdIntrBkSttlmAmt ?? part.OrgnlIntrBkSttlmAmt;
    return [part.TxSts ?? part.Conf, part.CxlId ?? part.OrgnlCxlId, part.Rsn, amount && `${money(amount)} ${part.Ccy}`].filter(Boolean).join(" ");
  }).join("; ");
}

function item_of([time, kind, sender, message, line], bank, transfer) {
  const item = made("li"), more = made("details"), head = made("summary", `${time}  ${kind}  ${sender}  ${message} `), parsed = JSON.parse(line);
  head.append(made("b", content_of(parsed, bank, transfer)));
  more.append(head, made("pre", JSON.stringify(parsed, null, 1)));
  item.append(more);
  return item;
}

// A line of the status text on a transfer: what it says, what that means, and what to do about it.
function status_line([letter, , , ...fields]) {
  const [table, names] = { T: ["transfers", 0], F: ["findings", 0], R: ["recalls", 1] }[letter], word = fields[names];
  const line = made("p", "", { className: letter === "F" ? "finding" : "" }), about = made("b", fields.slice(names).map(letter === "F" ? String : spelled).join(" "), { className: color_of_word(table, word) });
  const reason = letter === "F" ? "" : reason_of(fields[names + 1]);
  line.append(names ? `${words.recall} ${fields[0]} ` : "", about, ` ${reason && `(${reason}) `}${meaning(table, word)} `, made("small", `${said(words.remedy, label(word))} ${remedy_of(table, word)}`));
  return line;
}

// What a clerk knows a transfer by, by its messages: the day and the amount, both parties with their accounts, and what it is for.
function known_lines(rows) {
  const order = rows.map(([, , , , line]) => JSON.parse(line)).find((message) => message.MsgNmId.startsWith("pacs.008"));
  if (!order) return [];
  const parts = [[words.known.amount, `${money(order.IntrBkSttlmAmt)} ${order.Ccy}`], [words.known.day, day_text(order.IntrBkSttlmDt)],
    [words.known.payer, `${order.Dbtr}, ${order.DbtrAcct}, ${order.DbtrAgt}`], [words.known.payee, `${order.Cdtr}, ${order.CdtrAcct}, ${order.CdtrAgt}`],
    [words.known.identification, order.EndToEndId], [words.remittance, order.Ustrd ?? ""]];
  return parts.filter(([, text]) => text).flatMap(([name, text]) => [made("dt", name), made("dd", text)]);
}

async function show_messages(bank, transfer) {
  at("transfer-title").textContent = said(words.messages_on, bank, transfer);
  at("transfer-messages").replaceChildren();
  at("transfer-status").replaceChildren();
  at("transfer-known").replaceChildren();
  at("transfer").showModal();
  try {
    const { rows, status } = await ask("messages", { bank, transfer });
    at("transfer-known").replaceChildren(...known_lines(rows));
    at("transfer-status").replaceChildren(...status.map(status_line));
    at("transfer-messages").replaceChildren(...rows.map((row) => item_of(row, bank, transfer)));
  } catch (reason) { at("transfer-messages").replaceChildren(made("li", fault_text(reason))); }
}

// ---- files that are dropped

// Whether a file is a list: by its name, or by its first words.
async function is_list(file) {
  const head = new Uint8Array(await file.slice(0, 64).arrayBuffer().catch(() => new ArrayBuffer(0)));
  const text = new TextDecoder(head[0] === 0xff ? "utf-16le" : head[0] === 0xfe ? "utf-16be" : "utf-8").decode(head);
  return /\.(csv|list)$/i.test(file.name) || /^\s*(?:sep=.\s+)?"?DbtrAgt"?[,;\t]/i.test(text);
}

async function dropped(event) {
  event.preventDefault();
  at("files").classList.remove("over");
  const given = { list: new DataTransfer(), messages: new DataTransfer() };
  for (const file of [...event.dataTransfer.files]) given[await is_list(file) ? "list" : "messages"].items.add(file);
  for (const name of Object.keys(given)) if (given[name].files.length) at(name).files = given[name].files;
  answer();
}

async function begin() {
  speak((navigator.language ?? "en").slice(0, 2));
  at("language").onchange = (event) => speak(event.target.value);
  at("files").onsubmit = answer;
  at("messages").onchange = () => { if (at("messages").files.length) answer(); };
  at("search").oninput = at("filter-bank").oninput = search;
  at("filter-word").onchange = (event) => choose(event.target.value ? [event.target.value] : []);
  at("lacks").onclick = () => choose(shown.words === LACKS ? [] : LACKS);
  at("before").onclick = () => page(-1);
  at("after").onclick = () => page(1);
  at("close").onclick = () => at("transfer").close();
  document.ondragover = (event) => { event.preventDefault(); at("files").classList.add("over"); };
  document.ondragleave = () => at("files").classList.remove("over");
  document.ondrop = dropped;
  try {
    start();
    const core = atob(at("core").textContent.trim());
    await ask("core", { bytes: Uint8Array.from(core, (letter) => letter.charCodeAt(0)) });
    document.body.dataset.ready = "1";
  } catch { complain(() => words.no_browser); at("compare").disabled = true; }
}
begin();
