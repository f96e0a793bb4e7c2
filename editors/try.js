// Tries the editors' lists of words against the keywords of the lexer:
//   node editors/try.js         where a list is not as expected it stops with a status that is not 0
"use strict";
const assert = require("assert");
const { readFileSync, readdirSync } = require("fs");
const path = require("path");

const top = path.join(__dirname, "..");
const text = (...names) => readFileSync(path.join(top, ...names), "utf8");

/** The keywords of the lexer's table, in its order. */
function keywordsOfTable() {
  const table = text("crates", "syntax", "src", "table.rt").match(/const KEYWORDS: \[&str; (\d+)\] = \[([^\]]*)\];/);
  assert.ok(table, "crates/syntax/src/table.rt has a table of keywords");
  const words = [...table[2].matchAll(/"([^"]*)"/g)].map((it) => it[1]);
  assert.strictEqual(words.length, Number(table[1]), "the table has as many keywords as it says");
  assert.ok(words.every((it) => /^[A-Za-z][A-Za-z0-9_]*$/.test(it)), "a keyword is spelled as a name is");
  return words;
}

/** The words of the vim file, but for those that stand in comments. */
function wordsOfVim() {
  const lines = text("editors", "vim", "syntax", "rte.vim").split("\n");
  return lines.flatMap((line) => {
    const [, words] = line.match(/^syntax keyword rte\w+ (.*)$/) ?? [];
    return words === undefined || words.startsWith("contained ") ? [] : words.split(" ");
  });
}

const grammar = JSON.parse(text("editors", "vscode", "rte.tmLanguage.json"));

/** The words of the TextMate grammar: all of its patterns of the form \b(one|other)\b. */
function wordsOfGrammar() {
  return grammar.patterns.flatMap((it) => it.match.match(/^\\b\(([A-Za-z|]+)\)\\b$/)?.[1].split("|") ?? []);
}

/** Each keyword once, and nothing else. */
function same(name, words, keywords) {
  const twice = words.filter((it, at) => words.indexOf(it) !== at);
  const lacks = keywords.filter((it) => !words.includes(it));
  const more = words.filter((it) => !keywords.includes(it));
  assert.deepStrictEqual({ twice, lacks, more }, { twice: [], lacks: [], more: [] }, `${name}: ${JSON.stringify({ twice, lacks, more })}`);
}

/** What the grammar marks in a line, from left to right: the first pattern that matches soonest. */
function marked(line) {
  const found = [];
  for (let at = 0; at < line.length;) {
    const next = grammar.patterns
      .map((it) => ({ name: it.name, hit: Object.assign(new RegExp(it.match, "g"), { lastIndex: at }).exec(line) }))
      .filter((it) => it.hit)
      .reduce((a, b) => (a && a.hit.index <= b.hit.index ? a : b), null);
    if (!next) break;
    found.push([next.hit[0], next.name.split(".")[0]]);
    at = next.hit.index + next.hit[0].length;
  }
  return found;
}

/** The words, numbers and comment of a line as the lexer takes them, names left out. */
function expected(line, keywords) {
  return [...line.matchAll(/%.*$|[A-Za-z][A-Za-z0-9_]*|[0-9]+/g)].map((it) => it[0])
    .filter((it) => !/^[A-Za-z]/.test(it) || keywords.includes(it));
}

const keywords = keywordsOfTable();
same("editors/vim/syntax/rte.vim", wordsOfVim(), keywords);
same("editors/vscode/rte.tmLanguage.json", wordsOfGrammar(), keywords);
assert.ok(text("editors", "vim", "syntax", "rte.vim").includes('syntax match rteComment "%.*$"'), "vim: a comment begins with %");
assert.strictEqual(JSON.parse(text("editors", "vscode", "language-configuration.json")).comments.lineComment, "%");
const [language] = JSON.parse(text("editors", "vscode", "package.json")).contributes.languages;
assert.deepStrictEqual(language.extensions, [".rte"]);

const [matcher] = JSON.parse(text("editors", "vscode", "package.json")).contributes.problemMatchers;
const fault = new RegExp(matcher.pattern.regexp).exec("plant/tank.rte: E10 17:3");
const part = (name) => fault[matcher.pattern[name]];
assert.deepStrictEqual(["file", "message", "line", "column"].map(part), ["plant/tank.rte", "E10", "17", "3"]);
const [task] = JSON.parse(text("editors", "vscode", "tasks.json")).tasks;
assert.strictEqual(task.problemMatcher, `$${matcher.name}`);
assert.ok(task.command.endsWith('| sed "s|^E[0-9]|${relativeFile}: &|"'), "the task puts the file in front of the fault");

assert.deepStrictEqual(marked("x := end_of mod 10 % mod"), [["mod", "keyword"], ["10", "constant"], ["% mod", "comment"]]);
let lines = 0;
const data = path.join("crates", "guide", "data");
for (const folder of readdirSync(path.join(top, data), { withFileTypes: true }).filter((it) => it.isDirectory())) {
  for (const name of readdirSync(path.join(top, data, folder.name)).filter((it) => it.endsWith(".rte"))) {
    for (const line of text(data, folder.name, name).split("\n")) {
      assert.deepStrictEqual(marked(line).map((it) => it[0]), expected(line, keywords), `${folder.name}/${name}: ${line}`);
      lines += 1;
    }
  }
}
console.log(`${keywords.length} keywords in both lists; ${lines} lines of programs marked as they should be`);
