// Accesses that meet: the next steps of two threads are to one field or element, and one writes it. Where the field
// isn't volatile, the run with both after these rows has a data race.

// A field of a class that isn't known counts as volatile, so nothing is told of it.
function isVolatile(classes, name, field) {
  const of = classes.get(name);
  return !of || of.fields.some(it => it.name === field && it.isVolatile);
}
// What a thread accesses next after so many rows, where the store is: { on, field, writes }; null where that is no
// field or element, or a volatile field.
function nextAccess(run, classes, thread, count) {
  const [call, words] = run.asked(thread, count);
  const found = call === null ? null : /^(reads|writes) ([^:]*)/.exec(words);
  if (!found) return null;
  const { on, field, isPair, name } = readCell(found[2]);
  if (isPair || name !== undefined) return null;
  const isThere = typeof field === "number" ? field >= 0 && field < run.get(on, SIZE)
    : !isVolatile(classes, classOf(on), field);
  return isThere ? { on, field, writes: found[1] === "writes" } : null;
}
// Two threads whose accesses meet after so many rows, where the store is; null where none do.
function meeting(run, classes, count) {
  const accesses = run.threads.map((name, thread) => nextAccess(run, classes, thread, count));
  for (let other = 0; other < accesses.length; other++)
    for (let one = 0; one < other; one++) {
      const first = accesses[one], second = accesses[other];
      if (first && second && first.on === second.on && first.field === second.field && (first.writes || second.writes))
        return [one, other];
    }
  return null;
}
