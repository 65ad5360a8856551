// Folds and orders the texts of many rows beside the page, so that the page answers meanwhile: { id, work, lines } comes
// in, { id, result } goes out.
import { searchable } from "./plain/catalogue.js";
import { lineOrder } from "./plain/finding.js";

const WORKS = { search: searchable, order: lineOrder };

onmessage = ({ data: { id, work, lines } }) => {
  const result = WORKS[work](lines);
  // numbers are handed over, not copied
  postMessage({ id, result }, [(result.starts ?? result).buffer]);
};
