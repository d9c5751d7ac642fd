// The desk's page: views switched, roles shown, the kit asked through the server. Nothing is judged here: what is live,
// free or refused, and why, comes from the server's answers.
"use strict";

const byId = (id) => document.getElementById(id);
const all = (selector, from = document) => [...from.querySelectorAll(selector)];

// An element with classes, text and children.
function made(tag, classes, ...children) {
  const one = document.createElement(tag);
  if (classes) one.className = classes;
  one.append(...children);
  return one;
}

// ---- the server ----

async function answer(request) {
  const reply = await request.catch(() => { throw new Error("The desk does not answer. Is it still running?"); });
  if (!reply.ok) throw new Error(await reply.text());
  return reply;
}

const get = (part) => answer(fetch(part));
const post = async (part, body) => (await answer(fetch(part, {
  method: "POST", headers: {"Content-Type": "application/json"}, body: JSON.stringify(body),
}))).json();

function notice(words, fine = false) {
  const place = byId("notice");
  place.textContent = words;
  place.hidden = !words;
  place.classList.toggle("fine", fine);
}

// Does something that may fail, and says why it did.
function doing(work) {
  return async (...given) => {
    try {
      notice("");
      await work(...given);
    } catch (wrong) {
      notice(wrong.message.trim());
    }
  };
}

// Saves what the server sends as a file of the officer's.
async function save(part, name) {
  const blob = await (await get(part)).blob();
  const link = made("a", "");
  link.href = URL.createObjectURL(blob);
  link.download = name;
  link.click();
  setTimeout(() => URL.revokeObjectURL(link.href), 10000);
}

// A chosen file as the server takes it.
async function sent(file) {
  const bytes = new Uint8Array(await file.arrayBuffer());
  let text = "";
  for (let at = 0; at < bytes.length; at += 8192) text += String.fromCharCode(...bytes.subarray(at, at + 8192));
  return {name: file.name, data: btoa(text)};
}

// ---- the views ----

const tabs = all('[role="tab"]');

function view(name) {
  for (const tab of tabs) {
    const here = tab.id === `tab-${name}`;
    tab.setAttribute("aria-selected", here);
    tab.tabIndex = here ? 0 : -1;
    byId(tab.getAttribute("aria-controls")).hidden = !here;
  }
  if (name === "try") doing(startTrial)();
}

function switching() {
  tabs.forEach((tab, place) => {
    tab.addEventListener("click", () => view(tab.id.slice(4)));
    tab.addEventListener("keydown", (event) => {
      const to = {ArrowRight: place + 1, ArrowLeft: place - 1, Home: 0, End: tabs.length - 1}[event.key];
      if (to === undefined) return;
      event.preventDefault();
      const next = tabs[(to + tabs.length) % tabs.length];
      if (next.disabled) return;
      next.focus();
      next.click();
    });
  });
}

// ---- the policy view ----

let policy = null;

const nameOf = (sort, number) => `${policy.names[sort][number] ?? sort + number} (${number})`;
const listOf = (sort, numbers) => numbers.map((number) => nameOf(sort, number)).join(", ");

// A name, and its number in brackets in smaller type.
function named(sort, number) {
  return made("span", "named", `${policy.names[sort][number]} `, made("small", "", `(${number})`));
}

function showRole(role, from) {
  for (const article of all("#detail .role")) article.classList.toggle("shown", article.id === `role-${role}`);
  for (const node of all("#hierarchy .node")) node.classList.toggle("chosen", node.dataset.role === role);
  const detail = byId("detail");
  if (!from.closest("#hierarchy")) detail.scrollIntoView({block: "start"});
  else if (getComputedStyle(detail).position === "static") detail.scrollIntoView({block: "nearest"});
}

function choosing() {
  byId("policy").addEventListener("click", (event) => {
    const link = event.target.closest("a[data-role]");
    if (!link || !byId("detail")) return;
    event.preventDefault();
    showRole(link.dataset.role, link);
  });
}

// Where the permission of a mark in the matrix comes from, in words.
function whereFrom(role, permission) {
  const said = policy.roles[role];
  const who = nameOf("role", role), what = nameOf("permission", permission);
  if (!said.carried.includes(permission)) return `${who} does not carry ${what}.`;
  const through = said.through.filter((one) => one.permissions.includes(permission)).map((one) => one.role);
  const ways = said.granted.includes(permission) ? ["by a grant of its own"] : [];
  if (through.length) ways.push(`through ${listOf("role", through)}`);
  return `${who} carries ${what} ${ways.join(" and ")}.`;
}

function pointing() {
  const matrix = document.querySelector(".matrix tbody");
  if (!matrix) return;
  const heads = all(".matrix thead th");
  let marked = null;
  matrix.addEventListener("pointerover", (event) => {
    const cell = event.target.closest("td");
    if (!cell || !policy) return;
    if (marked) marked.classList.remove("pointed-at");
    marked = heads[cell.cellIndex - 1];
    marked.classList.add("pointed-at");
    byId("pointed").textContent = whereFrom(cell.cellIndex - 1, cell.parentNode.sectionRowIndex);
  });
}

// ---- try ----

const at = {user: 0, window: null};
let trial = null;
let permissionButtons = [], personButtons = [], nodes = [], edges = [];

function wish() {
  const aims = [byId("aim-permissions").value, byId("aim-roles").value].map(Number);
  return {user: at.user, window: at.window, add: byId("add").checked, narrow: byId("narrow").checked,
    aims: aims[0] === 1 && aims[1] === 1 ? null : aims};
}

const act = doing(async (what) => {
  trial = await post("try", {...wish(), ...what});
  at.user = trial.user;
  at.window = trial.window;
  drawTrial(what.do !== undefined);
});

async function startTrial() {
  if (!permissionButtons.length) buildTrial();
  await act({});
}

function buildTrial() {
  permissionButtons = policy.names.permission.map((_, number) => {
    const button = made("button", "permission", named("permission", number), made("span", "by"));
    button.addEventListener("click", () => act({do: "ask", permission: number}));
    return button;
  });
  byId("permissions").replaceChildren(...permissionButtons);
  personButtons = policy.names.user.map((_, number) => {
    const button = made("button", "", named("user", number), made("span", "open"));
    button.addEventListener("click", () => { at.user = number; at.window = null; act({}); });
    return button;
  });
  byId("people-list").replaceChildren(...personButtons.map((button) => made("li", "", button)));
  byId("picture").replaceChildren(document.querySelector("#hierarchy .hierarchies").cloneNode(true));
  nodes = all("#picture .node");
  edges = all("#picture .edge");
  for (const node of nodes) node.classList.remove("chosen");
}

function drawTrial(acted) {
  drawPeople();
  drawWindows();
  drawAnswer(acted);
  drawPermissions();
  drawSteps();
  drawPicture();
}

function drawPeople() {
  personButtons.forEach((button, number) => {
    const open = trial.people[number].length;
    button.setAttribute("aria-pressed", number === at.user);
    button.classList.toggle("blocking", number !== at.user && trial.in_the_way.some(([user]) => user === number));
    button.querySelector(".open").textContent = open ? `${open} window${open === 1 ? "" : "s"}` : "";
  });
  byId("whose").replaceChildren(named("user", at.user));
}

// The windows of the person at hand; the element that had the focus has it again.
function drawWindows() {
  const focused = document.activeElement && document.activeElement.dataset.key;
  const cards = trial.people[at.user].map(({window, roles}) => {
    const blocking = trial.in_the_way.some(([user, session]) => user === at.user && session === window);
    const pick = made("button", "pick", made("strong", "", `Window ${window}`), roles.length ? listOf("role", roles) : "no role is live");
    if (blocking) pick.append(made("span", "in-the-way", "in the way"));
    pick.dataset.key = `pick${window}`;
    pick.setAttribute("aria-pressed", window === at.window);
    pick.addEventListener("click", () => { at.window = window; act({}); });
    const close = made("button", "close", "×");
    close.dataset.key = `close${window}`;
    close.setAttribute("aria-label", `Close window ${window}`);
    close.addEventListener("click", () => act({do: "close", close: window}));
    return made("div", `window${window === at.window ? " here" : ""}${blocking ? " blocking" : ""}`, pick, close);
  });
  const none = made("p", "empty", `${nameOf("user", at.user)} has no window open. Open one to press permissions in it.`);
  byId("windows").replaceChildren(...(cards.length ? cards : [none]));
  byId("asking").hidden = !trial.permissions.length;
  const again = focused && document.querySelector(`[data-key="${focused}"]`);
  if (again) again.focus();
}

function drawAnswer(acted) {
  const last = trial.steps[trial.steps.length - 1], place = byId("answer");
  if (!last) {
    place.className = "answer";
    place.replaceChildren();
    return;
  }
  if (!acted) return;
  const verdict = last.done ? "Done: " : `Refused (${last.number} ${last.word}): `;
  const others = trial.in_the_way.filter(([user]) => user !== at.user);
  place.className = `answer ${last.done ? "good" : "bad"}`;
  place.replaceChildren(made("div", "", last.what), made("div", "", made("span", "verdict", verdict), last.told),
    ...others.map(([user, window, roles]) => made("div", "sub", `in the way: window ${window} of ${nameOf("user", user)}, with ${listOf("role", roles)}`)));
}

function drawPermissions() {
  trial.permissions.forEach(({free, by}, number) => {
    const button = permissionButtons[number], live = by.length > 0;
    button.classList.toggle("live", live);
    button.classList.toggle("barred", !live && !free);
    let words = live ? `by ${nameOf("role", by[0])}` : free ? "" : "refused now: press to see why";
    if (live && by[0] !== by[1]) words += ` through ${nameOf("role", by[1])}`;
    button.querySelector(".by").textContent = words;
  });
}

function drawSteps() {
  const list = byId("steps");
  const lines = trial.steps.map((step) => {
    const line = made("li", step.done ? "" : "refused", step.what, made("span", "told", step.done ? step.told : `${step.number} ${step.word}: ${step.told}`));
    line.append(made("code", "", step.line));
    return line;
  });
  list.replaceChildren(...(lines.length ? lines : [made("p", "empty", "Nothing yet.")]));
  list.scrollTop = list.scrollHeight;
  for (const id of ["undo", "save-script", "restart"]) byId(id).disabled = !trial.steps.length;
}

// The roles that are live, in the rows of the picture that have a role of the person's.
function drawPicture() {
  const windows = trial.people[at.user];
  const here = new Set(windows.filter((one) => one.window === at.window).flatMap((one) => one.roles));
  const others = new Set(windows.filter((one) => one.window !== at.window).flatMap((one) => one.roles));
  const own = new Set(trial.own);
  for (const node of nodes) {
    const role = Number(node.dataset.role);
    node.classList.toggle("lit", here.has(role));
    node.classList.toggle("other", others.has(role) && !here.has(role));
    node.classList.toggle("own", own.has(role));
    node.classList.toggle("away", !own.has(role));
  }
  for (const row of all("#picture svg")) row.toggleAttribute("hidden", !row.querySelector(".own"));
  byId("left-out").hidden = !all("#picture svg[hidden]").length;
  const alone = byId("picture").querySelector(".hierarchies > .sub");
  if (alone) alone.hidden = !all("#picture .sub ~ svg").some((row) => row.querySelector(".own"));
}

// A field that hides what does not have its words.
function finding(field, buttons, wrapped) {
  byId(field).addEventListener("input", (event) => {
    const words = event.target.value.toLowerCase();
    for (const button of buttons()) (wrapped ? button.parentNode : button).hidden = !button.querySelector(".named").textContent.toLowerCase().includes(words);
  });
}

function trying() {
  byId("open-window").addEventListener("click", () => act({do: "open"}));
  byId("undo").addEventListener("click", () => act({do: "undo"}));
  byId("restart").addEventListener("click", () => act({do: "restart"}));
  byId("save-script").addEventListener("click", doing(() => save("script", `${policy.file.replace(/\.[^.]*$/, "")}.script`)));
  byId("load-script").addEventListener("change", doing(async (event) => {
    const file = event.target.files[0];
    if (file) await act({do: "load", ...await sent(file)});
    event.target.value = "";
  }));
  for (const id of ["add", "narrow", "aim-permissions", "aim-roles"]) byId(id).addEventListener("change", () => act({}));
  finding("find-person", () => personButtons, true);
  finding("find-permission", () => permissionButtons, false);
  byId("picture").addEventListener("click", (event) => {
    const link = event.target.closest("a[data-role]");
    if (!link) return;
    event.preventDefault();
    view("policy");
    showRole(link.dataset.role, document.body);
  });
}

// ---- compare ----

const files = {old: null, new: null, ledger: null};

function comparing() {
  for (const side of ["old", "new", "ledger"]) {
    byId(side).addEventListener("change", doing(async (event) => {
      const file = event.target.files[0];
      files[side] = file ? await sent(file) : null;
      if (file) byId(`${side}-name`).textContent = file.name;
      byId("run-compare").disabled = !files.new;
      if (files.new) await compare();
    }));
  }
  byId("ledger-from").addEventListener("change", doing(async (event) => {
    byId("ledger-choice").hidden = event.target.value !== "file";
    byId("ledger-name").textContent = event.target.value === "file" && files.ledger ? files.ledger.name : "";
    if (files.new && (event.target.value !== "file" || files.ledger)) await compare();
  }));
  byId("sides").addEventListener("submit", (event) => { event.preventDefault(); doing(compare)(); });
}

async function compare() {
  const from = byId("ledger-from").value;
  byId("compared").replaceChildren();
  drawCompared(await post("compare", {old: files.old, new: files.new, ledger: from === "file" ? files.ledger : from === "trial" ? "trial" : null}));
}

function part(title, ...children) {
  return made("section", "part", made("h2", "", title), ...children);
}

function lines(title, classes, found) {
  return made("div", classes, made("h3", "", `${title} (${found.length})`),
    found.length ? made("ul", "", ...found.map((line) => made("li", "", made("code", "", line)))) : made("p", "empty", "nothing"));
}

function drawCompared(found) {
  const place = byId("compared");
  const verdict = made("p", "verdict-line", found.same ? `${found.old} and ${found.new} mean the same.` : `${found.new} differs from ${found.old}.`);
  const parts = [part("Entries", verdict)];
  if (!found.same) parts[0].append(made("div", "changes", lines("Taken", "taken", found.taken), lines("Added", "added", found.added)));
  if (found.moved.length) {
    parts.unshift(made("div", "warning", made("strong", "", "Numbers are not kept. A ledger knows people and roles by their numbers."),
      made("ul", "plain", ...found.moved.map((line) => made("li", "", line)))));
  }
  parts.push(part("Who may do more, who less", made("p", "lead", "By the closed table: what the roles carry that a person may take."), changed(found.people)));
  if (found.stopped) parts.push(part("Whom it stops", stopped(found.stopped)));
  place.replaceChildren(...parts);
}

function changed(people) {
  if (!people.length) return made("p", "empty", "Everyone may do what they could.");
  const rows = people.map((one) => {
    const note = one.new ? " new" : one.gone ? " gone" : "";
    const cell = (words, classes) => made("td", "", ...(words.length ? words.map((word) => made("span", classes, word)) : [made("span", "none", "nothing")]));
    const head = made("th", "", one.person, made("small", "", note));
    head.scope = "row";
    return made("tr", "", head, cell(one.more, "more"), cell(one.less, "less"));
  });
  const heads = ["Person", "More", "Less"].map((word) => made("th", "", word));
  for (const head of heads) head.scope = "col";
  return made("div", "scroll", made("table", "list", made("thead", "", made("tr", "", ...heads)), made("tbody", "", ...rows)));
}

function stopped(found) {
  if (found.refused) return made("p", "none", found.refused);
  const note = found.added ? [made("p", "lead", `${found.added} new ${found.added === 1 ? "person gets an" : "people get"} empty line${found.added === 1 ? "" : "s"}.`)] : [];
  if (!found.people.length) return made("div", "", ...note, made("p", "", "Nobody is stopped."));
  return made("div", "", ...note, ...found.people.map((one) => made("div", "", made("h3", "", `${one.person} is stopped`),
    made("ul", "", ...one.reasons.map((reason) => made("li", "", reason))))));
}

// ---- the start ----

async function start() {
  switching();
  choosing();
  trying();
  comparing();
  byId("reload").addEventListener("click", doing(async () => { await post("reload", {}); location.reload(); }));
  byId("save-image").addEventListener("click", doing(() => save("image", "policy.img")));
  byId("save-report").addEventListener("click", doing(() => save("report", `${policy.file.replace(/\.[^.]*$/, "")}.html`)));
  policy = await (await get("policy")).json();
  if (!policy.accepted) for (const one of [byId("tab-try"), ...all("[data-policy]")]) one.disabled = true;
  pointing();
  document.body.dataset.ready = "yes";
}

doing(start)();
