// Faults of a text while one writes it: `x10clock explain --json -` is asked of each version, and what it says becomes
// a diagnostic. No other package is needed.
"use strict";

const { spawn } = require("child_process");
const vscode = require("vscode");

// How many milliseconds after a change the program is asked.
const PAUSE = 200;
// Of a walk with more stops the last ones are shown.
const STOPS = 16;
// What a slot of a kind holds, as docs/EXPLAIN.md says it.
const HOLDS = {
  unset: "nothing",
  number: "a number",
  live: "a clock, registered",
  resumed: "a clock, registered and resumed",
  out: "a clock, dropped",
};

// The place of a line and a column, which count characters from 1: an editor counts UTF-16 units from 0.
function placeOf(document, line, column) {
  const text = document.lineAt(Math.min(line, document.lineCount) - 1).text;
  const before = Array.from(text).slice(0, column - 1);
  return new vscode.Position(Math.min(line, document.lineCount) - 1, before.join("").length);
}

// From there to the end that is said; programs up to 1.2.0 say none: to that of the word or character that begins there.
function rangeOf(document, it) {
  if (!it.line) return new vscode.Range(new vscode.Position(0, 0), new vscode.Position(0, 0));
  const start = placeOf(document, it.line, it.column);
  if (it.end_line) return new vscode.Range(start, placeOf(document, it.end_line, it.end_column));
  const rest = document.lineAt(start.line).text.slice(start.character);
  const word = /^(?:\w+|.|)/u.exec(rest)[0];
  return new vscode.Range(start, new vscode.Position(start.line, start.character + word.length));
}

// Whether a note is on another place than the fault.
function isElsewhere(said, note) {
  return "line" in note && (note.line !== said.line || note.column !== said.column);
}

// All that is said of a fault itself, in lines.
function messageOf(said) {
  const notes = said.notes.filter(note => !isElsewhere(said, note)).map(note => note.text);
  return [`${said.name}: ${said.message}`, ...notes, `usual repair: ${said.repair}`].join("\n");
}

// The other places: the last stops of a walk, and notes.
function relatedOf(document, said) {
  const stops = (said.walk || []).filter(stop => stop.line).slice(-STOPS);
  const held = stops.map(stop => ({ ...stop, text: `on a way to it, held before: ${HOLDS[stop.kind]}` }));
  const notes = said.notes.filter(note => isElsewhere(said, note));
  return [...held, ...notes].map(it => {
    const location = new vscode.Location(document.uri, rangeOf(document, it));
    return new vscode.DiagnosticRelatedInformation(location, it.text);
  });
}

// The diagnostic for a fault. One without a place is at the beginning.
function diagnosticOf(document, said) {
  const range = rangeOf(document, said);
  const fault = new vscode.Diagnostic(range, messageOf(said), vscode.DiagnosticSeverity.Error);
  fault.source = "x10clock";
  fault.code = said.rule;
  fault.relatedInformation = relatedOf(document, said);
  return fault;
}

// The diagnostics for an answer: none, or that of the fault and of those that are told behind it.
function diagnosticsOf(document, said) {
  if (said.accepted) return [];
  return [said, ...(said.further || [])].map(fault => diagnosticOf(document, fault));
}

exports.activate = context => {
  const faults = vscode.languages.createDiagnosticCollection("x10clock");
  // What is under way for each text: the pause before the program is asked, and the program that is being asked.
  const pauses = new Map();
  const asked = new Map();
  let hasWarned = false;

  const stop = document => {
    const key = document.uri.toString();
    clearTimeout(pauses.get(key));
    pauses.delete(key);
    if (asked.has(key)) asked.get(key).kill();
    asked.delete(key);
  };

  const warn = (name, error) => {
    if (hasWarned) return;
    hasWarned = true;
    vscode.window.showWarningMessage(`x10clock: no program ${name} (setting x10clock.program): ${error.message}`);
  };

  const ask = document => {
    const key = document.uri.toString();
    const version = document.version;
    const name = vscode.workspace.getConfiguration("x10clock").get("program");
    const program = spawn(name, ["explain", "--json", "-"]);
    asked.set(key, program);
    let out = "";
    program.stdout.setEncoding("utf8");
    program.stdout.on("data", text => (out += text));
    program.on("error", error => warn(name, error));
    program.on("close", () => {
      if (asked.get(key) !== program) return;
      asked.delete(key);
      if (out && document.version === version) faults.set(document.uri, diagnosticsOf(document, JSON.parse(out)));
    });
    // it may have ended, or read as much as it takes
    program.stdin.on("error", () => {});
    program.stdin.end(document.getText());
  };

  const changed = document => {
    if (document.languageId !== "x10clock") return;
    stop(document);
    pauses.set(document.uri.toString(), setTimeout(() => ask(document), PAUSE));
  };

  const closed = document => {
    stop(document);
    faults.delete(document.uri);
  };

  vscode.workspace.textDocuments.forEach(changed);
  context.subscriptions.push(
    faults,
    vscode.workspace.onDidOpenTextDocument(changed),
    vscode.workspace.onDidChangeTextDocument(event => changed(event.document)),
    vscode.workspace.onDidCloseTextDocument(closed),
    { dispose: () => vscode.workspace.textDocuments.forEach(stop) },
  );
};
