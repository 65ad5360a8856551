// What the catalogue has, as rows of a sheet are compared with it: numbers by refs, and which codes are there.

const codesOf = (rows) => new Set(rows.map(({ code }) => code));

/**
 * The catalogue by its parts.
 * @returns {import("./members.js").Catalogue}
 */
export function catalogueOf({ schedules, classes, holds, aggregations, records }, moment = "") {
  const refs = {
    aggregation: new Map(aggregations.map(({ number, ref }) => [number, ref])),
    record: new Map(records.map(([number, ref]) => [number, ref])),
  };
  const numbersOf = (named) => new Map([...named].map(([number, ref]) => [ref, number]));
  return {
    moment,
    refs,
    numbers: { aggregation: numbersOf(refs.aggregation), record: numbersOf(refs.record) },
    closed: new Set(aggregations.filter(({ closed }) => closed).map(({ number }) => number)),
    codes: { schedule: codesOf(schedules), class: codesOf(classes), hold: codesOf(holds) },
    lifted: new Set(holds.filter(({ lifted }) => lifted).map(({ code }) => code)),
  };
}
