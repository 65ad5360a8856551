// Reads modules of JavaScript, without running them: the names of the files come on standard input, one a line, and the
// names of those that are no modules go to standard output.
import fs from "node:fs";
import vm from "node:vm";

for (const name of fs.readFileSync(0, "utf8").split("\n").filter(Boolean)) {
  try {
    new vm.SourceTextModule(fs.readFileSync(name, "utf8").replace(/^#!.*/, ""), { identifier: name });
  } catch {
    console.log(name);
  }
}
