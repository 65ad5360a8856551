// Asks who signed in, and then the gate, where nginx has a file itself: a location takes one question alone.

/** Answers as the gate does about the name that office-sign-in states. The first that refuses is the answer. */
async function may(r) {
  const who = await r.subrequest("/sign-in/who");
  if (who.status !== 204) {
    r.return(who.status === 401 ? 401 : 503);
    return;
  }
  r.variables.signed_name = who.headersOut["Office-Name"];
  r.variables.signed_way = who.headersOut["Office-Way"];
  const gate = await r.subrequest(r.uri.replace(/sign-may$/, "may"));
  r.variables.word_of_gate = gate.headersOut["Office-Word"] || "";
  r.variables.unnamed_bytes = gate.headersOut["Office-Unnamed"] || "";
  r.return(gate.status);
}

export default { may };
