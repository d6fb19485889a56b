// The administrator's desk: users and their roles, inheritance, and new users with a token.

import { choice } from "../choices.js";
import { button, element, field, heading } from "../dom.js";
import { ask, command, rolesOf } from "../messages.js";
import { personText } from "../people.js";
import { texts } from "../texts.js";
import { canBeShown } from "../walk_ins.js";
import { canDigest, digestOf, isDigest, newToken } from "../tokens.js";
import { answerView } from "./denial.js";
import { accountMark, section } from "./marks.js";
import { walkInSection } from "./walk_in.js";

export const accountsNeeds = () => [ask.accounts()];

export function accountsView(page) {
  return [
    heading(texts.accounts.title),
    answerView(page, ask.accounts(), (accounts) => [usersSection(page, accounts), () => inheritanceSection(page, accounts)]),
    () => walkInSection(page),
    () => page.state.permissions?.administer && page.state.facts.edition === 2 && renameSection(page),
    () => page.state.permissions?.administer && newUserSection(page),
  ];
}

function usersSection(page, accounts) {
  return section(
    texts.accounts.users,
    element("ul", { class: "rows users" }, accounts.users.map(([name, assigned]) => () => userItem(page, name, assigned))),
  );
}

function userItem(page, name, assigned) {
  const { facts } = page.state;
  if (!page.state.permissions?.administer) return element("li", {}, element("b", {}, accountMark(facts, name)), " ", assigned.join(", "));
  const free = rolesOf(facts.edition).filter((role) => !assigned.includes(role));
  return element(
    "li",
    {},
    element("b", { class: "user-name" }, accountMark(facts, name)),
    assigned.map((role) => roleButton(page, name, role)),
    free.length > 0 && assignPart(page, name, free),
  );
}

function roleButton(page, name, role) {
  const { roleButton: label, deassignSure, deassigned } = texts.accounts;
  const person = personText(page.state.facts, name);
  const take = () => page.perform([command.deassign(name, role)], deassigned(role, person));
  return page.twoStep(`deassign-${name}-${role}`, label(role, person), deassignSure(role, person), take, texts.accounts.roleToTake(role));
}

function assignPart(page, name, free) {
  const chosen = page.forms.assign.get(name) ?? free[0];
  const choose = (role) => {
    page.forms.assign.set(name, role);
    page.draw();
  };
  const person = personText(page.state.facts, name);
  const assign = () => page.perform([command.assign(name, chosen)], texts.accounts.assigned(chosen, person));
  const spoken = texts.accounts.assignTo(person);
  const id = `assign-part-${name}`;
  return element(
    "details",
    { id },
    element("summary", { id: `assign-summary-${name}`, "aria-label": spoken }, texts.accounts.assignShort),
    // for each user of a session, so none is drawn that is closed
    page.isOpen(id) && element(
      "div",
      { class: "fields" },
      choice(`assign-role-${name}`, texts.accounts.role, free.map((role) => [role, texts.role(role)]), chosen, choose),
      button(`assign-${name}`, texts.accounts.assign, assign),
    ),
  );
}

function inheritanceSection(page, accounts) {
  const mayChange = page.state.permissions?.administer;
  return section(
    texts.accounts.inheritance,
    element("p", { class: "note" }, texts.accounts.inheritanceNote),
    element("ul", { class: "rows" }, accounts.inherits.map((pair) => inheritanceItem(page, pair, mayChange))),
    mayChange && newInheritance(page),
  );
}

function inheritanceItem(page, [senior, junior], mayChange) {
  const { deletePair, deletePairSure, pairDeleted, delete: drawn } = texts.accounts;
  const remove = () => page.perform([command.deleteInheritance(senior, junior)], pairDeleted(senior, junior));
  const [label, sure] = [deletePair(senior, junior), deletePairSure(senior, junior)];
  return element(
    "li",
    {},
    element("span", {}, texts.accounts.inherits(senior, junior)),
    mayChange && page.twoStep(`delete-${senior}-${junior}`, label, sure, remove, drawn),
  );
}

function newInheritance(page) {
  const form = page.forms.inheritance;
  const options = rolesOf(page.state.facts.edition).map((role) => [role, texts.role(role)]);
  const set = (part) => (role) => {
    form[part] = role;
    page.draw();
  };
  const done = texts.accounts.pairAdded(form.senior, form.junior);
  const add = () => page.perform([command.addInheritance(form.senior, form.junior)], done);
  return element(
    "div",
    { class: "fields" },
    choice("senior", texts.accounts.senior, options, form.senior, set("senior")),
    choice("junior", texts.accounts.junior, options, form.junior, set("junior")),
    button("add-pair", texts.accounts.addPair, add),
  );
}

/** The name by which a user is shown: given, changed, or taken away by an empty one. */
function renameSection(page) {
  const form = page.forms.rename;
  const users = page.answer(ask.accounts())?.value?.users ?? [];
  const note = (part) => (event) => {
    form[part] = event.target.value;
  };
  const give = () => {
    const [name, shown] = [form.name.trim(), form.shown.trim()];
    if (shown !== "" && !canBeShown(shown)) return page.refuse(texts.walkIn.badShown);
    return page.perform([command.rename(name, shown)], texts.accounts.renamed(name, shown), () => Object.assign(form, { name: "", shown: "" }));
  };
  return section(texts.accounts.rename,
    element("p", { class: "note" }, texts.accounts.renameNote),
    element("datalist", { id: "all-names" }, users.map(([name]) => element("option", { value: name }))),
    element("div", { class: "fields" },
      field("rename-name", texts.director.user, { value: form.name, list: "all-names", onInput: note("name") }),
      field("rename-shown", texts.walkIn.shown, { value: form.shown, maxlength: 64, autocapitalize: "words", onInput: note("shown") }),
      button("rename", texts.accounts.renameButton, give)));
}

function newUserSection(page) {
  const form = page.forms.newUser;
  const secure = canDigest();
  return section(texts.accounts.newUser,
    element("p", {}, secure ? texts.accounts.newUserExplained : texts.accounts.notSecure),
    element("div", { class: "fields" },
      field(
        "new-name",
        texts.accounts.name,
        { value: form.name, maxlength: 32, onInput: (event) => { form.name = event.target.value; } },
        texts.accounts.nameNote,
      ),
      choice(
        "new-role",
        texts.accounts.role,
        [["", texts.accounts.noRole], ...rolesOf(page.state.facts.edition).map((role) => [role, texts.role(role)])],
        form.role,
        (value) => { form.role = value; page.draw(); },
      ),
      !secure && field(
        "new-digest",
        texts.accounts.digest,
        { value: form.digest, onInput: (event) => { form.digest = event.target.value; } },
        texts.accounts.digestNote,
      ),
      button("add-user", texts.accounts.addUser, () => addUser(page, secure), { class: "main" })),
    form.made && element("div", { class: "token-made", id: "token-made", role: "status" },
      element("p", {}, texts.accounts.tokenMade(form.made.name)),
      element("p", {}, element("code", { id: "new-token" }, form.made.token)),
      element("p", { class: "note" }, texts.accounts.tokenNote),
      button(
        "forget-token",
        texts.accounts.forgetToken,
        () => { form.made = null; page.draw(); },
        { class: "quiet" },
      )));
}

/** The token is shown once and kept nowhere; the server gets its digest alone. */
async function addUser(page, secure) {
  const form = page.forms.newUser;
  const [name, role, token] = [form.name.trim(), form.role, secure ? newToken() : null];
  const digest = secure ? await digestOf(token) : form.digest.trim().toLowerCase();
  if (!isDigest(digest)) return page.refuse(texts.accounts.badDigest);
  const commands = [command.addUser(name, digest), ...(role ? [command.assign(name, role)] : [])];
  return page.perform(
    commands,
    texts.accounts.userAdded(name),
    () => Object.assign(form, { name: "", digest: "", made: secure ? { name, token } : null }),
  );
}
