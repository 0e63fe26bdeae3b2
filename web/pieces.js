/** A piece of an account as it stands on the page: a text, a link to a row or a table, or prose. */
import { by, make, withCode } from "./dom.js";
import { act } from "./state.js";

/** @param {import("./account.js").Piece} piece */
export function pieceOf(piece) {
  if (typeof piece === "string") return piece;
  if (piece.isProse) return make("span", {}, ...withCode(piece.text));
  const { row, part } = piece;
  return make("a", { href: part ? `#${part}-name` : `#${row}`, onclick: (/** @type {Event} */ event) => {
    event.preventDefault();
    if (row !== undefined) act("go", row);
    else by(`${part}-name`).scrollIntoView({ block: "start" });
  } }, piece.text);
}
