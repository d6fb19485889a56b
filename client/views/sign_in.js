// Signing in: a name and a token. The token is in the field until the server has judged it.

import { element, field, heading } from "../dom.js";
import { isServerPath } from "../routes.js";
import { texts } from "../texts.js";

export function signInView(page) {
  const { signIn } = page.forms;
  const submit = (event) => {
    event.preventDefault();
    page.signIn(signIn.name, signIn.token);
  };
  return [
    heading(texts.signIn.title),
    element("p", {}, texts.signIn.explained),
    element("form", { id: "sign-in", class: "panel narrow", onSubmit: submit },
      field(
        "name",
        texts.signIn.name,
        {
          value: signIn.name,
          required: true,
          autocomplete: "username",
          onInput: (event) => { signIn.name = event.target.value; },
        },
      ),
      field(
        "token",
        texts.signIn.token,
        {
          type: "password",
          value: signIn.token,
          required: true,
          autocomplete: "off",
          onInput: (event) => { signIn.token = event.target.value; },
        },
        texts.signIn.tokenNote,
      ),
      staysView("stays", signIn.stays, (stays) => { signIn.stays = stays; }),
      element("p", { id: "stays-note", class: "note" }, texts.signIn.staysNote),
      element(
        "button",
        { id: "sign-in-button", class: "main", "aria-disabled": page.isBusy ? "true" : null },
        page.isBusy ? texts.signIn.busy : texts.signIn.button,
      )),
    settings(page),
  ];
}

/** Whether a reload is to sign in again. */
export const staysView = (id, checked, onChange) => element("label", { for: id, class: "check" },
  element("input", { type: "checkbox", id, checked, onChange: (event) => onChange(event.target.checked), "aria-describedby": "stays-note" }),
  " ",
  texts.signIn.stays);

/** The server's path on the page's own host: no other host can be asked, by the page's Content-Security-Policy too. */
function settings(page) {
  const change = (event) => {
    const path = event.target.value.trim();
    event.target.setCustomValidity(isServerPath(path) ? "" : texts.signIn.badPath);
    event.target.reportValidity();
    if (isServerPath(path)) page.setServerPath(path);
  };
  return element("details", { id: "settings", class: "narrow" },
    element("summary", { id: "settings-summary" }, texts.signIn.settings),
    field(
      "server-path",
      texts.signIn.path,
      { value: page.serverPath, onChange: change },
      texts.signIn.pathNote(globalThis.location.host),
    ));
}
