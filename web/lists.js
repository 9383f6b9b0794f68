// Lists of banks: what a spreadsheet saves as one, and which of its rows a report may not have. The rules are those of
// tools/desk/list_from_csv.py and tools/desk/check_list.py.
"use strict";
const COLUMNS = 4, SEPARATORS = [";", "\t", ","], HEADER = ["DbtrAgt", "TxId", "Amt", "Sts"];
const STATUSES = ["ACCEPTED", "REJECTED", "RETURNED", "PENDING", "INVESTIGATED"];
const STATUS_OF_CODE = { ACCP: "ACCEPTED", RJCT: "REJECTED", PDNG: "PENDING" }; // codes of messages, and the words of a list
const OTHER_CODES = ["ACSC", "ACWP", "ACSP", "ACTC", "ACCC", "RCVD", "CNCL", "RJCR", "FOCR"]; // codes of messages without a word
const DECIMAL_COMMA = /^\d+,\d{1,2}$/;
const THOUSANDS = /^(?:\d{1,3}(?:([.' \u00a0\u202f])\d{3})(?:\1\d{3})*,\d{2}|\d{1,3}(?:,\d{3})+\.\d{2})$/;
const A_BIC = /^[A-Z0-9]{4}[A-Z]{2}[A-Z0-9]{2}(?:[A-Z0-9]{3})?$/, AMOUNT = /^(?=.*[1-9])[0-9]{1,9}(?:\.[0-9]{1,2})?$/;
const IDENTIFICATION = /^(?!\/)(?!.*\/\/)(?!.*\/$)[A-Za-z0-9/?:().,'+ -]{1,35}$/;
const MOST_SHOWN = 40; // characters of a field that a sentence shows
// the hints on texts that are no amounts
const AMOUNT_HINTS = [["amount_empty", /^$/], ["amount_sign", /^[+\u2212-]/], ["amount_alone", /[\p{L}\u20ac$\u00a3]/u], ["amount_least", /^0+(?:[.,]0+)?$/],
  ["amount_decimals", /^[0-9]+[.,][0-9]{3,}$/], ["amount_most", /^[0-9]{10,}(?:[.,][0-9]{1,2})?$/]];
const MARK = [0xef, 0xbb, 0xbf]; // the byte order mark of UTF-8

// ---- CSV

const begins_with = (bytes, beginning) => beginning.every((byte, place) => bytes[place] === byte);

// The field at a place of a text, and the place after it. A field in double quotes may hold separators and line feeds.
function field_at(text, place, separator) {
  let field = "";
  if (text[place] === '"') {
    for (place += 1; ;) {
      const end = text.indexOf('"', place);
      if (end < 0) return [field + text.slice(place), text.length];
      field += text.slice(place, end);
      place = end + 1;
      if (text[place] !== '"') break;
      field += '"';
      place += 1;
    }
  }
  const from = place;
  while (place < text.length && text[place] !== separator && text[place] !== "\n" && text[place] !== "\r") place += 1;
  return [field + text.slice(from, place), place];
}

// The records of a text. Blank lines are not records.
function* records_of(text, separator) {
  for (let place = 0; place < text.length;) {
    const begin = place, fields = [];
    for (let ends = false; !ends; place += 1) {
      const [field, end] = field_at(text, place, separator);
      fields.push(field);
      ends = text[end] !== separator;
      place = end;
    }
    if (fields.length > 1 || place - 1 > begin) yield fields;
  }
}

// A record as a line of CSV with commas.
const record_line = (fields) => fields.map((field) => /[",\r\n]/.test(field) ? `"${field.replaceAll('"', '""')}"` : field).join(",") + "\n";

// ---- what a spreadsheet saves

// The text of a file, by the first encoding that it fits. The byte order mark is left out.
function text_in(bytes) {
  const [first, second] = bytes;
  if (first === 0xff && second === 0xfe) return new TextDecoder("utf-16le").decode(bytes);
  if (first === 0xfe && second === 0xff) return new TextDecoder("utf-16be").decode(bytes);
  try {
    return new TextDecoder("utf-8", { fatal: true }).decode(bytes);
  } catch (error) {
    if (!(error instanceof TypeError)) throw error;
    return new TextDecoder("windows-1252").decode(bytes);
  }
}

// Whether a file begins as a list does: with the first name of its header, in UTF-8 or UTF-16.
const is_list = (head) => /^(?:sep=.\r?\n)?"?DbtrAgt"?[,;\t]/i.test(text_in(head.subarray(begins_with(head, MARK) ? MARK.length : 0, 67)).trimStart());

// An amount with a point, if it is clear what it is: 1,250 may be 1.25 or 1250.
function amount_of(text) {
  if (DECIMAL_COMMA.test(text)) return text.replace(",", ".");
  return THOUSANDS.test(text) ? `${text.slice(0, -3).replace(/[^0-9]/g, "")}.${text.slice(-2)}` : text;
}

// What separates the fields of a text, by its first line.
function separator_of(text) {
  const head = text.split(/[\r\n]/, 1)[0], many = (separator) => head.split(separator).length;
  const best = SEPARATORS.reduce((best, one) => many(one) > many(best) ? one : best);
  return many(best) > 1 ? best : ",";
}

// Where a record has the fields of a list, if it is a header: its names are those of a list in any order.
function order_of(record) {
  const names = record.map((name) => name.toLowerCase()), order = HEADER.map((name) => names.indexOf(name.toLowerCase()));
  return record.length === COLUMNS && !order.includes(-1) ? order : null;
}

// The records of a text that have a field, without blanks around their fields and empty fields at their ends.
function* fields_in(text, separator) {
  for (const record of records_of(text, separator)) {
    const fields = record.map((field) => field.trim());
    while (fields.length > COLUMNS && fields.at(-1) === "") fields.pop();
    if (fields.some(Boolean)) yield fields;
  }
}

// A list of what a spreadsheet saved: its bytes as the program reads them, what was read in another way, and what is wrong. A list with
// something wrong has no bytes.
function plain_list(bytes) {
  const whole = text_in(bytes).trimStart(), first = /^sep=(.)\r?\n?/.exec(whole);
  const text = first ? whole.slice(first[0].length).trimStart() : whole;
  const separator = first ? first[1] : separator_of(text), found = [...fields_in(text, separator)], order = found.length && order_of(found[0]);
  if (!order) return { bytes: null, read: {}, faults: [text_fault(text) ?? header_fault(found)] };
  let commas = 0;
  const rows = found.slice(1).map((fields) => {
    if (fields.length !== COLUMNS) return fields;
    const [bank, transfer, money, status] = order.map((place) => fields[place]), amount = amount_of(money);
    if (amount !== money) commas += 1;
    return [bank, transfer, amount, status];
  });
  const faults = rows.flatMap((row, place) => row_of_list_fault(row, place + 2) ?? []);
  const read = { mark: begins_with(bytes, MARK), wide: bytes[0] >= 0xfe, first: Boolean(first), semicolons: separator === ";", tabs: separator === "\t",
    order: order.some((at, place) => at !== place), commas };
  return { bytes: faults.length ? null : new TextEncoder().encode([HEADER, ...rows].map(record_line).join("")), read, faults };
}

// ---- what is wrong with a list

// A field as a sentence shows it.
const shown_field = (text) => `'${(text.length > MOST_SHOWN ? text.slice(0, MOST_SHOWN) + ".." : text).replace(/[\p{C}\p{Zl}\p{Zp}]|(?! )\p{Zs}/gu, "?")}'`;

// What is wrong: the name of a sentence, what it is about, and the name of a hint with what that is about.
const wrong = (name, about = [], hint = null, of = []) => ({ name, about, hint: hint && { name: hint, about: of } });

// Why a text is no list, by how it begins.
function text_fault(text) {
  if (!text.trim()) return wrong("list_empty");
  return text.startsWith("<") ? wrong("list_xml") : text.startsWith("{") ? wrong("list_json") : null;
}

// Why the first record is no header, and what to do.
function header_fault(found) {
  const [first] = found, below = found.findIndex(order_of);
  if (below > 0) return wrong("list_header", [], "header_below", [below + 1]);
  if (first.length === COLUMNS && A_BIC.test(first[0])) return wrong("list_header", [], "header_lacks");
  const names = first.slice(0, 2 * COLUMNS).map(shown_field).join(", ") + (first.length > 2 * COLUMNS ? ", .." : "");
  return wrong("list_header", [], first.length === COLUMNS ? "header_names" : "header_more", [names]);
}

// The hint on a text that is no amount.
function amount_hint(text) {
  const two = /^([1-9]\d{0,2})[.,](\d{3})$/.exec(text);
  if (two) return ["amount_two", [two[1] + two[2], `${two[1]}.${two[2]}`]];
  return [AMOUNT_HINTS.find(([, form]) => form.test(text))?.[0]];
}

// The hint on a text that is no status of a list.
function status_hint(text) {
  if (STATUSES.includes(text.toUpperCase())) return ["write", [text.toUpperCase()]];
  if (text in STATUS_OF_CODE) return ["status_code", [STATUS_OF_CODE[text]]];
  return [OTHER_CODES.includes(text) ? "some_code" : undefined];
}

// The hint on a text that is no identification.
function identification_hint(text) {
  if (text.length > 35) return ["identification_long", [text.length]];
  const odd = [...text].find((sign) => !IDENTIFICATION.test(`A${sign}A`));
  return odd ? ["identification_sign", [shown_field(odd)]] : [];
}

// Why a row of a list is none, or nothing.
function row_of_list_fault(row, number) {
  if (row.length !== COLUMNS) return wrong("row_fields", [number, row.length]);
  const [bank, transfer, money, status] = row;
  if (!A_BIC.test(bank)) return wrong("row_bic", [number, shown_field(bank)], A_BIC.test(bank.toUpperCase()) ? "write" : null, [bank.toUpperCase()]);
  if (!IDENTIFICATION.test(transfer)) return wrong("row_identification", [number, shown_field(transfer)], ...identification_hint(transfer));
  if (!AMOUNT.test(money)) return wrong("row_amount", [number, shown_field(money)], ...amount_hint(money));
  return STATUSES.includes(status) ? null : wrong("row_status", [number, shown_field(status)], ...status_hint(status));
}

// ---- what a report may not have

const bank_of = (text) => text.length === 8 ? text + "XXX" : text;

// Whether a text is a day of the calendar, such as 2025-03-10.
function is_day(text) {
  const day = new Date(`${text}T00:00:00Z`);
  return /^(?!0000)\d{4}-\d{2}-\d{2}$/.test(text) && !isNaN(day) && day.toISOString().startsWith(text);
}

// What the messages on a transfer say of its banks: the beneficiary and the day of each instruction, and the banks of all others.
function banks_in(messages) {
  const instructions = [], others = new Set();
  for (const message of messages) {
    if (message.MsgNmId.startsWith("pacs.008")) { instructions.push({ beneficiary: bank_of(message.CdtrAgt), day: message.IntrBkSttlmDt }); continue; }
    for (const name of ["InstgAgt", "InstdAgt"]) if (name in message) others.add(bank_of(message[name]));
  }
  return { instructions, others };
}

// What is to be said of a row that names a transfer, or nothing: the name of a sentence, what it is about, and whether it forbids the report.
function row_fault({ asking, day, number, bank, transfer }, messages) {
  const { instructions, others } = banks_in(messages);
  const banks = instructions.length ? instructions.map((one) => one.beneficiary) : [...others], is_its = [bank, ...banks].includes(asking);
  const about = (name, forbids, ...more) => ({ name, forbids, about: [number, bank, transfer, ...more] });
  if (instructions.length && !is_its) return about("row_of_others", true, instructions[0].beneficiary, asking);
  if (others.size && !is_its) return about("row_without", true, asking);
  if (instructions.length && !instructions.some((one) => one.day === day)) return about("row_of_day", false, instructions[0].day, day);
  return null;
}

// What is to be said of the rows of a list, by the messages on the transfer that each names.
function* row_faults(bytes, bank, day, messages_on) {
  let number = 0;
  for (const [its_bank, transfer] of records_of(new TextDecoder().decode(bytes), ",")) {
    number += 1;
    if (number === 1) continue;
    const row = { asking: bank_of(bank), day, number, bank: bank_of(its_bank), transfer };
    const fault = row_fault(row, messages_on(row.bank, transfer));
    if (fault) yield fault;
  }
  if (number < 2) yield { name: "no_row", forbids: false, about: [] };
}
