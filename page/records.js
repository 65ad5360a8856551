// Several records of the office, one after another: what no list reports of them.
import { getNewest } from "./ask.js";
import { jsonOf } from "./plain/outcomes.js";

/** So many requests are under way at once; the server takes eight of an address. */
const AT_ONCE = 4;

/**
 * Asks for records by their numbers, at most so many of them.
 * @param {number[]} numbers
 * @param {number} most
 * @returns {Promise<object[] | null>} those that were asked for and are there, in their order; null if one answer failed
 */
export async function recordsOf(numbers, most) {
  const wanted = numbers.slice(0, most);
  const found = [];
  let next = 0;
  let isWhole = true;
  const work = async () => {
    while (next < wanted.length && isWhole) {
      const at = next;
      next += 1;
      const answer = await getNewest(`records/${wanted[at]}`);
      const record = answer.status === 200 ? jsonOf(answer) : undefined;
      if (record) found[at] = record;
      else isWhole = false;
    }
  };
  await Promise.all(Array.from({ length: AT_ONCE }, work));
  return isWhole ? found.filter(Boolean) : null;
}
