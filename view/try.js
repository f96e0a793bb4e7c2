// Tries the logic of timeline.html, and the page over stand-ins, without a browser and without a built program:
//   node view/try.js            at the first thing that is not as expected it stops with a status that is not 0
//   node view/try.js LOG        tells the times of a long log as well
"use strict";
const assert = require("assert");
const { readFileSync } = require("fs");
const path = require("path");
const { plant, simulate } = require("./simulate.js");

const html = readFileSync(path.join(__dirname, "timeline.html"), "utf8");
const scripts = new Map([...html.matchAll(/<script id="([a-z]+)">([\s\S]*?)<\/script>/g)].map((it) => [it[1], it[2]]));
const parts = ["read", "dispatch", "figures", "layout", "picture"];
assert.deepStrictEqual([...scripts.keys()], [...parts, "page"]);
const names = [...parts.map((it) => scripts.get(it)).join("\n").matchAll(/^(?:function|const|class) ([A-Za-z_]+)/gm)].map((it) => it[1]);
const logic = new Function(`${parts.map((it) => scripts.get(it)).join("\n")}\nreturn { ${[...new Set(names)].join(", ")} };`)();
const { parse, build, KIND } = logic;

const examples = path.join(__dirname, "..", "crates", "guide", "data");
const LOGS = ["mine", "bus", "late", "crossing", "cruise", "buffer"];
const stored = (name) => readFileSync(path.join(examples, name, "output.txt"), "utf8");
const modelOf = (text) => build(parse(text));
const lane = (model, name) => model.lanes.find((it) => (it.process ?? it.monitor).name === name);
const rowOf = (model, name) => logic.rowsOf(model).find((it) => it.name === name);
const same = assert.deepStrictEqual;

/** What `go` puts for the small example of the README. */
const SMALL = "program a\nprocess p frame 15 rank 1 cost 15 suspend 0 waits 0 block 0 bound 15 data 0 stack 1\ncode 3\ntimely\n" +
  "0 p release\n10 p put valve 7\n14 p end\n";

/** What is put, by the block between the lines `$ COMMAND` and `$` of an example's page: a line `WORD: ..` begins the message. */
function shownBy(page, command) {
  const text = readFileSync(path.join(examples, page), "utf8");
  const start = text.indexOf(`$ ${command}\n`);
  assert.ok(start >= 0, command);
  const from = start + command.length + 3;
  const block = text.slice(from, Math.min(...["\n$", "\n```"].map((it) => text.indexOf(it, from)).filter((it) => it >= 0)) + 1);
  return block.replace(/^\S+: [^]*/m, "");
}

/** The states of a lane as rows of start, end and name, without those in which nothing is in progress. */
function statesOf(model, segments) {
  const rows = [];
  for (let at = 0; at < segments.at.length; at++) {
    const to = segments.at[at + 1] ?? model.end;
    if (segments.state[at] !== 0 && to > segments.at[at]) rows.push([segments.at[at], to, ["", "runs", "waits", "held", "busy"][segments.state[at]]]);
  }
  return rows;
}

const tests = {
  /** Each kind of line, with what its words say. */
  reading() {
    const run = parse(SMALL);
    same([run.program, run.code, run.verdict, run.count, run.problemCount], ["a", 3, "timely", 3, 0]);
    const { name, frame, deadline, bound } = run.processes[0];
    same([name, frame, deadline, bound], ["p", 15, 15, 15]);
    same([...run.tick.subarray(0, 3)], [0, 10, 14]);
    same([...run.kind.subarray(0, 3)].map((it) => logic.KINDS[it]), ["release", "put", "end"]);
    same(logic.lineOf(run, 1), "10 p put valve 7");
    same(logic.wordsOf(run, 1), "put valve 7");
    same(logic.lineNumberOf(run, 1), 6);
    const late = parse(stored("late"));
    same(late.processes.map((it) => [it.name, it.frame, it.deadline]), [["steer", 500, 200], ["report", 20000, 20000]]);
    same(late.monitors.map((it) => [it.name, it.ceiling, it.words]), [["record", 1, 51]]);
    const none = parse("process p frame 15 rank 1 cost over suspend 0 waits 0 block 0 bound none data 0 stack 1\nmonitor m ceiling none words 1\nuntimely p\n");
    same([none.processes[0].bound, none.processes[0].cost, none.monitors[0].ceiling, none.verdict, none.problemCount], [null, null, null, "untimely p", 0]);
  },

  /** Mark of byte order, CR, no last newline, nothing at all. */
  spellings() {
    same(parse("\ufeff" + SMALL.replace(/\n/g, "\r\n")).problems, []);
    same(logic.lineOf(parse(SMALL.replace(/\n/g, "\r\n")), 2), "14 p end");
    same(parse(SMALL.trimEnd()).count, 3);
    same(logic.lineOf(parse(SMALL.trimEnd()), 2), "14 p end");
    for (const text of ["", "\n\n"]) same([parse(text).count, parse(text).problemCount, modelOf(text).lanes.length], [0, 0, 0]);
  },

  /** A line that is none is told with its number, and the rest is read. */
  problems() {
    const wrong = (text) => parse(text).problems.map((it) => [it.line, it.what]);
    same(wrong("0 p release\n5 p toString\n"), [[2, "5 p toString: toString is no event"]]);
    same(wrong("0 p release\n5 p constructor x\n7 p end\n"), [[2, "5 p constructor x: constructor is no event"]]);
    same(wrong("7 p release\n5 p end\n"), [[2, "5 p end: tick 5 stands behind tick 7"]]);
    same(wrong("0 p get d\n"), [[1, "0 p get d: a line of get has 5 words"]]);
    same(wrong("0 p end now\n"), [[1, "0 p end now: a line of end has 3 words"]]);
    same(wrong("3000000000 p end\n"), [[1, "3000000000 p end: tick 3000000000 is above 2147483647"]]);
    same(wrong("E20 50:11\n"), [[1, "E20 50:11: rte refused with this line; docs/LANGUAGE.md says what it means"]]);
    same(wrong("program a\nhello\n"), [[2, "hello: neither report nor log"]]);
    same(wrong("process p frame x\n"), [[1, "process p frame x: behind frame stands no number"]]);
    same(wrong("process p speed 7\n"), [[1, "process p speed 7: a report has no word speed"]]);
    same(wrong("process p frame 9\nprocess p frame 9\n"), [[2, "process p frame 9: process p is told twice"]]);
    same(wrong("{ \"program\": \n")[0][0], 1);
    const many = parse("x\n".repeat(80));
    same([many.problemCount, many.problems.length], [80, logic.KEPT]);
    same(logic.troubles(build(many)).at(-1), "and 30 more lines");
    same(logic.troubles(modelOf("0 p release\n0 p release\n5 p end\n9 p put d 1\n")), [
      "line 2: 0 p release: p is released, and has not ended", "line 4: 9 p put d 1: p was not released before this"]);
  },

  /** The names of a text, each with its number, also when they are more than the slots that it began with. */
  numbering() {
    const list = Array.from({ length: 500 }, (it, at) => `n${at * 7919 % 500}`);
    const all = new logic.Names();
    list.forEach((name, at) => same(all.number(`<${name}>`, 1, name.length + 1), at));
    list.forEach((name, at) => same(all.find(name, 0, name.length), at));
    same(all.find("n500", 0, 4), -1);
  },

  /** `check` and `json` of the same program say the same; report and log may stand in two files, in any order. */
  reports() {
    const check = parse("program tank\nprocess guard frame 100 rank 1 cost 74 suspend 0 waits 0 block 33 bound none data 1 stack 5\n" +
      "process show frame 400 rank 2 cost 79 suspend 0 waits 0 block 0 bound 375 data 1 stack 5\nmonitor box ceiling 1 words 2\ncode 46\nuntimely guard\n");
    const guide = readFileSync(path.join(examples, "GUIDE.md"), "utf8");
    const line = /^\{.*"bound":"none".*\}$/m.exec(guide)[0];
    for (const text of [line, JSON.stringify(JSON.parse(line), null, 2)]) {
      const json = parse(text);
      same([json.problems, json.processes, json.monitors, json.code, json.program], [[], check.processes, check.monitors, check.code, "tank"]);
      assert.ok(json.verdict.startsWith("untimely"));
    }
    const [report, log] = [SMALL.slice(0, SMALL.indexOf("0 p release")), SMALL.slice(SMALL.indexOf("0 p release"))];
    for (const text of [report + log, log + report]) same(statesOf(modelOf(text), modelOf(text).lanes[0].states), [[0, 15, "runs"]]);
    same(modelOf(log).rule, "none");
    same(statesOf(modelOf(log), modelOf(log).lanes[0].states), [[0, 15, "busy"]]);
    assert.ok(logic.summary(modelOf(log)).includes("open the report too"));
  },

  /** The first 500 ticks of the mine pump: the letters of the README of the repository, a letter for ten ticks. */
  chart() {
    const readme = readFileSync(path.join(__dirname, "..", "README.md"), "utf8");
    const model = modelOf(stored("mine"));
    let seen = 0;
    for (const [, name, letters] of readme.matchAll(/^ {4}(gasWatch|airWatch|shower|tally|selfTest) +([#mw.]+) /gm)) {
      seen++;
      const { states, inside } = lane(model, name);
      [...letters].forEach((letter, at) => {
        const counts = { runs: 0, m: 0, waits: 0, held: 0 };
        for (let tick = 10 * at; tick < 10 * at + 10; tick++) {
          const state = ["", "runs", "waits", "held"][states.state[logic.segmentAt(states, tick)]];
          if (state === "runs" && inside.state[logic.segmentAt(inside, tick)] === 1) counts.m++;
          else if (state) counts[state]++;
        }
        const meant = { "#": "runs", m: "m", w: "waits", ".": "held" }[letter];
        assert.ok(counts[meant] > 0, `${name} at ${10 * at}: ${letter}, ${JSON.stringify(counts)}`);
      });
    }
    same(seen, 5);
  },

  /** By hand, from the log of the bus: its first turn. */
  byHand() {
    const model = modelOf(stored("bus"));
    const until = (name, tick) => statesOf(model, lane(model, name).states).filter((it) => it[0] < tick);
    same(until("poll", 1000), [[0, 30, "runs"], [30, 235, "waits"], [235, 246, "held"], [246, 278, "runs"]]);
    same(until("receive", 1000), [[200, 246, "runs"]]);
    same(statesOf(model, lane(model, "poll").inside).slice(0, 2), [[12, 30, "runs"], [250, 256, "runs"]]);
    const wire = lane(model, "wire").states;
    same(statesOf(model, wire).slice(0, 3).map((it) => it.slice(0, 2)), [[12, 30], [225, 238], [250, 256]]);
    same([...wire.who].slice(1, 7).filter((it) => it >= 0).map((it) => model.run.processes[it].name), ["poll", "receive", "poll"]);
    // its third ends by a time-out at 2330, while the other is inside the monitor
    same(until("poll", 9999).filter((it) => it[0] > 2000), [[2030, 2330, "waits"], [2330, 2342, "held"], [2342, 2357, "runs"]]);
  },

  /** All actions of the stored logs are by the process that is worked out, and no more runs than one. */
  everyAction() {
    let actions = 0;
    for (const name of LOGS) {
      const model = modelOf(stored(name));
      same([name, model.stray, model.notes, logic.troubles(model)], [name, 0, [], []]);
      actions += [...model.run.kind.subarray(0, model.run.count)].filter((it) => it > KIND.timeout).length;
      for (let tick = 0; tick < model.end; tick++) {
        const running = model.byPlace.filter((it) => it.states.state[logic.segmentAt(it.states, tick)] === 1);
        assert.ok(running.length <= 1, `${name} at ${tick}`);
      }
    }
    // counted with grep: the lines of the six logs that are neither release nor timeout
    same(actions, LOGS.flatMap((name) => stored(name).match(/^[0-9]+ [A-Za-z0-9_]+ (?!release|timeout)[a-z]+/gm)).length);
    // a log in which the lower process acts while the higher one is ready
    const wrong = modelOf("process h frame 90 rank 1 bound 20\nprocess l frame 90 rank 2 bound 50\n0 h release\n0 l release\n9 l put d 1\n20 h end\n");
    same(wrong.stray, 1);
    assert.ok(logic.troubles(wrong)[0].startsWith("line 5: 9 l put d 1: by the report another process runs then"));
  },

  /** The machine of simulate.js, which decides who runs, against what is worked out of its log. */
  simulated() {
    const { text, ran } = simulate(plant(), 20000);
    const model = modelOf(text);
    same([model.run.count, logic.troubles(model)], [20000, []]);
    const mine = [];
    for (let at = 0; at < model.turns.at.length; at++) {
      const who = model.turns.who[at];
      const name = who < 0 ? null : model.run.processes[who].name;
      if (mine.length === 0 || mine.at(-1).name !== name) mine.push({ tick: model.turns.at[at], name });
    }
    same(mine, ran.filter((it) => it.tick < model.end).map(({ tick, name }) => ({ tick, name })));
    const total = (state) => model.byPlace.reduce((sum, it) => sum + logic.between(it.states, state, 0, model.end), 0);
    same(total(1), ran.reduce((sum, it, at) => sum + (it.name === null ? 0 : Math.min(model.end, ran[at + 1]?.tick ?? model.end) - it.tick), 0));
    for (const it of model.byPlace) {
      const { activations } = it;
      activations.from.forEach((from, at) => {
        const held = logic.heldBy(model, it, from, activations.to[at]).reduce((sum, other) => sum + other.ticks, 0);
        same(activations.to[at] - from, activations.ran[at] + activations.waited[at] + held);
      });
    }
  },

  /** Earliest deadline first: the log of the example, and one by hand in which a ceiling keeps an earlier deadline out. */
  earliestDeadline() {
    const model = modelOf(shownBy("edf/README.md", "rte edf edf/two.rte edf/two.script"));
    same([model.rule, model.stray, model.run.problems], ["edf", 0, []]);
    same(statesOf(model, lane(model, "p").states), [[0, 15, "runs"], [30, 41, "held"], [41, 56, "runs"]]);
    same(statesOf(model, lane(model, "q").states), [[0, 15, "held"], [15, 41, "runs"], [52, 56, "held"]]);
    const late = modelOf(shownBy("edf/README.md", "rte edf edf/late.rte edf/two.script"));
    same([late.run.verdict, late.run.problems, late.run.count], ["late 40 demand 41", [], 0]);
    const report = "program e\nprocess s frame 50 deadline 50 cost 9 data 0 stack 1\nprocess l frame 99 deadline 99 cost 40 data 0 stack 1\ncode 8\npoints 4\nfeasible\n";
    const log = "0 l release\n9 l enter m\n12 s release\n30 l leave m\n33 s enter m\n35 s leave m\n39 s end\n44 l end\n";
    const ceiling = modelOf(report + log);
    same([ceiling.stray, logic.troubles(ceiling)], [0, []]);
    same(statesOf(ceiling, lane(ceiling, "s").states), [[12, 31, "held"], [31, 40, "runs"]]);
    same(statesOf(ceiling, lane(ceiling, "l").states), [[0, 31, "runs"], [31, 40, "held"], [40, 45, "runs"]]);
    // so it is again for the next activation of each, though s has had ticks before
    const again = modelOf(report + log + "99 l release\n108 l enter m\n112 s release\n130 l leave m\n133 s enter m\n135 s leave m\n139 s end\n144 l end\n");
    same([again.stray, statesOf(again, lane(again, "s").states).slice(2)], [0, [[112, 131, "held"], [131, 140, "runs"]]]);
    same(logic.heldBy(ceiling, lane(ceiling, "s"), 12, 40).map((it) => [it.name, it.ticks, [...it.inside]]), [["l", 19, ["m"]]]);
  },

  /** A raise and a wait leave the monitor; a signal wakes the process that it names, and no other; a broadcast all. */
  monitors() {
    const raised = modelOf("process p frame 50 rank 1 bound 20\n0 p release\n10 p enter m\n14 p raise 12\n18 p end\n");
    same(raised.lanes[0].stays, { from: [11], to: [15], monitor: [0] });
    same(raised.lanes[0].raises.length, 1);
    const ranks = "process p frame 500 rank 1 bound 99\nprocess q frame 500 rank 2 bound 99\nprocess r frame 500 rank 3 bound 99\nmonitor m ceiling 1 words 1\n";
    const log = "0 p release\n0 q release\n0 r release\n10 p enter m\n16 p wait m c\n30 q enter m\n36 q wait m c\n41 r enter m\n" +
      "46 r signal m c p\n49 r leave m\n53 p enter m\n56 p leave m\n60 p end\n64 r end\n137 q timeout m c 10\n140 q end\n";
    const model = modelOf(ranks + log);
    same(logic.troubles(model), []);
    const waits = (name) => statesOf(model, lane(model, name).states).filter((it) => it[2] === "waits").map((it) => it.slice(0, 2));
    same([waits("p"), waits("q")], [[[17, 47]], [[37, 137]]]);
    same(lane(model, "q").timeouts.length, 1);
    // r signals at 46 and stays inside until 49, with the ceiling of p: p is held up by one that ranks below
    same(logic.heldBy(model, lane(model, "p"), 0, 61).map((it) => [it.name, it.ticks, [...it.inside]]), [["r", 3, ["m"]]]);
  },

  /** The table: by hand from the log of the mine pump, and again from the lines alone. */
  figures() {
    const model = modelOf(stored("mine"));
    same(logic.rowsOf(model).map((it) => it.name), ["gasWatch", "airWatch", "flow", "shower", "tally", "selfTest"]);
    // released at 0, 800, 1600, 2400, 3200, 4000, 4800, ended with 87, 887, 1703, 2503, 3303, 4072, 4887
    const gas = rowOf(model, "gasWatch");
    same([gas.ended, gas.least, gas.greatest], [7, { response: 73, at: 5 }, { response: 104, at: 2 }]);
    same(gas.mean, (88 + 88 + 104 + 104 + 104 + 73 + 88) / 7);
    same([gas.share, gas.raises, gas.timeouts, gas.over], [104 / 187, 1, 0, false]);
    same(gas.load, (88 + 88 + 104 + 104 + 104 + 73 + 88) / 5153);       // the first rank runs from release to end
    same(rowOf(modelOf(stored("bus")), "poll").timeouts, 1);
    for (const name of LOGS) {
      const since = {}, longest = {};
      for (const [, tick, who, what] of stored(name).matchAll(/^([0-9]+) (\S+) (release|end)$/gm)) {
        if (what === "release") since[who] = Number(tick);
        else longest[who] = Math.max(longest[who] ?? 0, Number(tick) + 1 - since[who]);
      }
      for (const row of logic.rowsOf(modelOf(stored(name)))) same([name, row.name, row.greatest?.response], [name, row.name, longest[row.name]]);
    }
    const late = rowOf(modelOf("process p frame 20 rank 1 bound 15\n0 p release\n15 p end\n"), "p");
    same([late.over, late.greatest.response], [true, 16]);
    const open = rowOf(modelOf("process p frame 20 rank 1 bound 15\n0 p release\n5 p get d 1\n"), "p");
    same([open.ended, open.greatest, open.mean, open.share], [0, null, null, null]);
  },

  /** Bins by hand: the seven responses of gasWatch are 88, 88, 104, 104, 104, 73, 88. */
  histogram() {
    const it = lane(modelOf(stored("mine")), "gasWatch");
    same(logic.histogramOf(it, 4), { from: 73, width: 8, counts: [1, 3, 0, 3] });      // 73..80, 81..88, 89..96, 97..104
    same(logic.histogramOf(it, 100).counts.length, 32);
    same(logic.histogramOf({ activations: { from: [], to: [], ended: [] } }, 4).counts, []);
    const svg = logic.histogramSvg({ name: "gasWatch", bound: 104 }, logic.histogramOf(it, 4), logic.LIGHT);
    same([svg.match(/<title>/g).length, svg.includes("81 to 88 ticks: 3")], [4, true]);
  },

  /** What is told of an activation: selfTest of the mine pump, whose 441 held ticks are those of the four others. */
  told() {
    const model = modelOf(stored("mine"));
    same(logic.tellActivation(model, lane(model, "selfTest"), 0), [
      "selfTest: released at 0, ended with tick 490", "response 491; bound 1906 (25.8 %); deadline 60000 (0.8 %)", "ran 50 of cost 50, waited 0, held up 441",
      "  by tally: 281", "  by gasWatch: 88", "  by shower: 49", "  by airWatch: 23"]);
    // shower waits from 128 to 437, and is then held up to 440 by selfTest, which is inside the box and ranks below
    same(logic.tellActivation(model, lane(model, "shower"), 0).slice(2), ["ran 49 of cost 60, waited 309, held up 114", "  by gasWatch: 88", "  by airWatch: 23", "  by selfTest: 3, inside box"]);
    same(logic.tellActivation(modelOf(stored("late")), lane(modelOf(stored("late")), "report"), 0)[0], "report: from 0, its end is not in the log");
    const cursors = (a, b) => logic.tellCursors({ a, b });
    same([cursors(null, null), cursors(120, null), cursors(498, 120)], ["", "A 120, B -", "A 498, B 120: 378 ticks between"]);
    same(logic.summary(model), "mine, timely, 115 events, the last at tick 5152");
  },

  /** The lines with a text: in the log only, each once, in order. */
  searching() {
    const run = parse(stored("mine"));
    const wanted = (text) => stored("mine").split("\n").filter((it) => /^[0-9]/.test(it) && it.includes(text));
    for (const text of ["put pump", "raise", "a", "4009 gasWatch get methane 2000", "0", "1152", "gasWatch e"]) same(logic.search(run, text).map((it) => logic.lineOf(run, it)), wanted(text));
    same(logic.search(run, "ceiling"), []);
    same(logic.search(run, ""), []);
    same(logic.search(run, "5152 flow end").length, 1);
    same(logic.search(parse(SMALL + "hello valve\n"), "valve").length, 1);
  },

  /** Places in pixels, by hand: 10 pixels a tick, the names 178 wide. */
  places() {
    const model = modelOf(SMALL);
    const view = { ...logic.fitted(model, 1200, 800), from: 0, scale: 10 };
    same(view.gutter, 178);
    const { plot } = logic.layout(model, view);
    same(plot.rects.filter((it) => it.look === "runs"), [{ look: "runs", x: 178, y: 48, width: 150, height: 18 }]);
    same(plot.shapes.filter((it) => it.look === "put").map((it) => it.points[0]), [178 + 110]);
    same(plot.rects.filter((it) => it.look === "bound").map((it) => it.x), [1, 1, 1, 1].map(() => 178 + 149));
    same(plot.rects.filter((it) => it.look === "deadline").map((it) => it.x), [178 + 149.5]);
    same(plot.texts.map((it) => it.text), ["put valve 7"]);
    same(logic.told(model, view, 178 + 112, 24 + 18), ["10 p put valve 7"]);
    same(logic.told(model, view, 178 + 40, 24 + 30)[1], "response 15; bound 15 (100.0 %); deadline 15 (100.0 %)");
    same(logic.told(model, view, 178 + 1, 24 + 53), ["0 p release"]);
    same(logic.told(model, view, 178 + 149, 24 + 53), ["bound 15 of the release at 0: 15"]);
    same(logic.told(model, view, 178 + 400, 24 + 30), null);
    same(logic.told(model, view, 20, 24 + 30), null);
    same(logic.snapped(model, view, 178 + 107, 24 + 30), 11);           // the end of tick 10
    same(logic.snapped(model, view, 178 + 62, 24 + 30), 6);
    for (let scale = 0.001; scale < 50; scale *= 3) assert.ok(logic.stepOf(scale) * scale >= 90);
  },

  /** What is drawn is what there is: the width of each state, in ticks, at 400 places. */
  widths() {
    const model = modelOf(stored("mine"));
    for (let turn = 0; turn < 400; turn++) {
      const view = { ...logic.fitted(model, 1200, 800), from: model.end * turn / 400, scale: 0.1 * Math.pow(400, turn % 20 / 20) };
      const to = Math.min(model.end, view.from + view.width / view.scale);
      for (const it of model.byPlace) {
        const rects = [];
        logic.layoutSegments(it.states, model.end, logic.LOOKS, view, 0, 1000, rects);
        for (const state of [1, 2, 3]) {
          const drawn = rects.filter((one) => one.look === logic.LOOKS[state]).reduce((sum, one) => sum + one.width * one.height / 1000, 0) / view.scale;
          const wanted = logic.between(it.states, state, view.from, to);
          const columns = rects.filter((one) => one.many).length;
          assert.ok(Math.abs(drawn - wanted) <= 0.001 + columns * 0.002 / view.scale, `${it.process.name} ${state} at ${view.from}, ${view.scale}: ${drawn}, ${wanted}`);
        }
      }
    }
  },

  /** A crowd: never more parts than pixels, and of a fence of limits a band is left. */
  thinning() {
    const count = 20000;
    let text = "process p frame 10 rank 1 cost 4 suspend 0 waits 0 block 0 bound 4 data 0 stack 1\n";
    for (let at = 0; at < count; at++) text += `${10 * at} p release\n${10 * at + 3} p end\n`;
    const model = modelOf(text);
    const view = logic.fitted(model, 1600, 900);
    const { plot } = logic.layout(model, view);
    const of = (look) => plot.rects.filter((it) => it.look === look);
    const bars = of("runs");
    assert.ok(bars.length <= 1600);
    for (const it of bars) assert.ok(it.height >= 6 && it.height <= 9, JSON.stringify(it));        // 4 of 10 ticks of 18 pixels: 7.2
    same(plot.shapes, []);
    const bands = (look) => of(look).filter((it) => it.alpha);
    for (const look of ["release", "bound", "deadline"]) assert.ok(bands(look).length >= 1 && bands(look).length <= 4, `${look}: ${bands(look).length}`);
    assert.ok(bands("release").every((it) => it.alpha === 0.9));
    // eight of them in a wide view stand as marks, each in its place
    const near = logic.layout(model, { ...view, from: 0, scale: view.width / 79 }).plot;
    same(near.shapes.filter((it) => it.look === "release").length, 8);
    same([logic.strength(2), logic.strength(4), logic.strength(16)], [0.35, 0.6, 0.9]);
    const singles = [], rects = [];
    logic.layoutMoments([0, 1, 2, 500], 0, { bucket: 10, room: 16 }, { from: 0, scale: 1, width: 1000, gutter: 0 }, { look: "act", y: 0, height: 4 }, rects, (x, place) => singles.push([x, place]));
    same([singles, rects], [[[500, 3]], [{ look: "act", x: 0, y: 0, width: 10, height: 4, alpha: 0.35 }]]);
  },

  /** By hand: of 3 moments in 100 pixels each has more than 24, of 5 none has, so these become a band: buckets 0, 2, 4, 6, 8. */
  fence() {
    const view = { from: 0, scale: 1, width: 100, gutter: 0 };
    const drawn = (times) => {
      const singles = [], rects = [];
      logic.layoutMoments(times, 0, { bucket: 10, room: 24 }, view, { look: "release", y: 0, height: 3 }, rects, (x) => singles.push(x));
      return [singles, rects.map((it) => [it.x, it.width])];
    };
    same(drawn([5, 45, 85]), [[5, 45, 85], []]);
    same(drawn([5, 25, 45, 65, 85]), [[], [[0, 10], [20, 10], [40, 10], [60, 10], [80, 10]]]);
  },

  /** A long log at many places: all stands right of the names, and the parts are few. */
  crowds() {
    const model = modelOf(simulate(plant(), 60000).text);
    const whole = logic.fitted(model, 1600, 900);
    for (let turn = 0; turn < 60; turn++) {
      const scale = whole.scale * Math.pow(logic.CLOSEST / whole.scale, turn / 59);
      const view = logic.moved(model, { ...whole, scale }, model.end * ((turn * 37) % 100) / 100, (turn * 53) % 300);
      const { plot } = logic.layout(model, view);
      assert.ok(plot.rects.length < 9 * 4 * 1600 && plot.shapes.length < 9 * 400, `${plot.rects.length} ${plot.shapes.length}`);
      for (const it of plot.rects) assert.ok(Number.isFinite(it.x) && it.x >= view.gutter - 3 && it.x + it.width <= view.gutter + view.width + 6 && it.width >= 0, JSON.stringify(it));
    }
  },

  /** Keys and zoom. */
  moving() {
    const model = modelOf(stored("mine"));
    const whole = logic.fitted(model, 1200, 300);
    const view = { ...whole, from: 1000, scale: 2 };
    const ticks = view.width / 2;
    const key = (name) => logic.keyed(model, view, name);
    same([key("ArrowLeft").from, key("ArrowRight").from], [1000 - ticks / 10, 1000 + ticks / 10]);
    same([key("ArrowDown").top, key("ArrowUp").top], [62, 0]);
    same([key("+").scale, key("-").scale], [4, 1]);
    same([key("Home").from, key("End").from], [0, 5153 - ticks * 0.9]);
    same(key("0"), whole);
    same(key("q"), null);
    const zoomed = logic.zoomed(model, view, 500, 3);
    assert.ok(Math.abs(logic.tickAt(zoomed, 500) - logic.tickAt(view, 500)) < 1e-9);
    same(logic.moved(model, view, -5, -5).from, 0);
    const showing = logic.showing(model, whole, lane(model, "selfTest"), 100, 200);
    assert.ok(Math.abs(logic.tickAt(showing, showing.gutter + showing.width / 2) - 150) < 1e-6 && showing.top > 0);
    same([logic.gutterOf(500), logic.gutterOf(1600)], [92, 178]);
  },

  /** SVG of what is in sight: what the layout has, and names that are escaped. */
  picture() {
    const model = modelOf(SMALL.replace(/ p /g, " p&q "));
    const view = { ...logic.fitted(model, 1200, 800), from: 0, scale: 10 };
    const svg = logic.svgOf(logic.layout(model, view, { a: 3, b: null }), view, logic.LIGHT);
    assert.ok(svg.startsWith("<svg xmlns=\"http://www.w3.org/2000/svg\" width=\"1200\" height=\"800\"") && svg.endsWith("</svg>\n"));
    assert.ok(svg.includes(`<rect x="178" y="48" width="150" height="18" fill="${logic.LIGHT.runs}"/>`));
    assert.ok(svg.includes(">p&amp;q</text>") && !/&(?!amp;|lt;|gt;|quot;)/.test(svg));
    same(svg.match(/<(rect|polygon|text|g|clipPath|svg)\b/g).length - svg.match(/\/>/g).length, svg.match(/<\/(text|g|clipPath|svg)>/g).length);
    const looks = new Set([...scripts.get("layout").matchAll(/look: "([A-Za-z]+)"/g)].map((it) => it[1]).concat(logic.LOOKS.slice(1), Object.values({ a: "get", b: "alarm" })));
    for (const it of looks) assert.ok(logic.LIGHT[it] && logic.DARK[it], it);
    same(Object.keys(logic.LIGHT), Object.keys(logic.DARK));
  },

  /** The whole page over stand-ins: open, paint, zoom, drag, point, the buttons, a click in the table, a search. */
  wholePage,
};

/** A stand-in for an element of the page: it keeps what is set, and takes any call of its canvas. */
function element(calls, name = "") {
  const pen = new Proxy({}, {
    get: (held, key) => (key in held ? held[key] : (...words) => { calls.push([key, ...words]); }),
    set: (held, key, value) => { held[key] = value; return true; },
  });
  const classes = new Set();
  const it = { name, tagName: name.toUpperCase(), style: { setProperty() {} }, dataset: {}, clientWidth: 1000, clientHeight: 600, offsetWidth: 100, offsetHeight: 40, cells: [], children: [], textContent: "", value: "",
               classList: { toggle: (word) => { if (classes.delete(word)) return false; classes.add(word); return true; }, add: (word) => classes.add(word), remove: (word) => classes.delete(word), contains: (word) => classes.has(word) },
               getContext: () => pen, setPointerCapture() {}, setAttribute() {}, focus() {}, select() {}, click() { calls.push(["click", it.download]); },
               append(...all) { it.children.push(...all); }, replaceChildren(...all) { it.children = all; },
               insertRow() { const row = element(calls, "tr"); it.children.push(row); return row; },
               insertCell() { const cell = element(calls, "td"); it.cells.push(cell); return cell; } };
  return it;
}

function wholePage() {
  const calls = [], elements = {}, frames = [];
  const document = { documentElement: element(calls), createElement: (name) => element(calls, name),
                     getElementById(id) {
                       if (!elements[id]) { elements[id] = element(calls, id === "find" ? "input" : id); elements[id].children = [element(calls), element(calls)]; }
                       return elements[id];
                     } };
  const window = { devicePixelRatio: 2, matchMedia: () => ({ matches: false }) };
  let made = "";
  const file = { URL: { createObjectURL: (it) => { made = it.text; return "blob:1"; }, revokeObjectURL() {} }, Blob: class { constructor([text]) { this.text = text; } } };
  const code = [...scripts.values()].map((it) => it.replace('"use strict";', "")).join("\n");
  new Function("document", "window", "requestAnimationFrame", "URL", "Blob", "setTimeout", `"use strict";${code}`)(document, window, (call) => frames.push(call), file.URL, file.Blob, () => {});
  const painted = () => { const start = calls.length; while (frames.length) frames.shift()(); return calls.slice(start); };
  const texts = (list) => list.filter((it) => it[0] === "fillText").map((it) => it[1]);
  const key = (name, more = {}) => document.onkeydown({ key: name, target: { tagName: "CANVAS" }, preventDefault() {}, ...more });
  painted();
  elements.paste.oninput({ target: { value: stored("mine") } });
  assert.ok(texts(painted()).includes("gasWatch"));
  same(elements.said.textContent, "mine, timely, 115 events, the last at tick 5152");
  same(elements.troubles.hidden, true);
  const rows = elements.table.children[0].children;
  same(rows.length, 7);
  same(rows[0].children.map((it) => it.textContent), ["process", "rank", "load", "ended", "least", "mean", "greatest", "bound", "of bound", "deadline", "raises", "time-outs", ""]);
  same(rows[1].cells.map((it) => it.children[0]?.textContent ?? it.textContent), ["gasWatch", "1", "12.6 %", "7", "73", "92.7", "104", "187", "55.6 %", "800", "1", "0", "histogram"]);
  rows[1].cells[6].children[0].onclick();
  assert.ok(texts(painted()).includes("put pump 0"));
  same(elements.told.textContent.split("\n")[0], "gasWatch: released at 1600, ended with tick 1703");
  rows[1].cells[10].children[0].onclick();
  same(elements.told.textContent, "4012 gasWatch raise 3");
  rows[1].cells[12].children[0].onclick();
  assert.ok(elements.histogram.innerHTML.includes("responses of gasWatch"));
  const event = { preventDefault() {}, pointerId: 1, offsetX: 500, offsetY: 60, deltaY: -400, deltaX: 0, shiftKey: false, buttons: 0, movementX: 5, movementY: 5 };
  for (const more of [{}, { shiftKey: true }]) elements.canvas.onwheel({ ...event, ...more });
  elements.canvas.onpointerdown(event);
  elements.canvas.onpointermove({ ...event, buttons: 1, offsetX: 540 });
  elements.canvas.onpointerup({ ...event, offsetX: 540 });
  same(elements.cursors.textContent, "");                               // a drag sets no cursor
  key("0");
  for (const [x, shiftKey] of [[400, false], [800, true]]) {
    elements.canvas.onpointerdown({ ...event, offsetX: x, offsetY: 590 });
    elements.canvas.onpointerup({ ...event, offsetX: x, offsetY: 590, shiftKey });
  }
  assert.ok(/^A [0-9]+, B [0-9]+: [0-9]+ ticks between$/.test(elements.cursors.textContent), elements.cursors.textContent);
  assert.ok(texts(painted()).includes("A"));
  key("Escape");
  same(elements.cursors.textContent, "");
  for (const name of ["ArrowLeft", "ArrowRight", "ArrowUp", "ArrowDown", "+", "-", "Home", "End", "0", "/"]) key(name);
  elements.find.value = "put alarm";
  for (const [shiftKey, hit, line] of [[false, "1 of 2", "3066 flow put alarm 3"], [false, "2 of 2", "4068 gasWatch put alarm 1"], [true, "1 of 2", "3066 flow put alarm 3"]]) {
    elements.find.onkeydown({ key: "Enter", shiftKey, preventDefault() {} });
    same([elements.hits.textContent, elements.told.textContent], [hit, line]);
  }
  elements.find.value = "put pump";                                     // at 1053, 1655, 2455, 3255, 4049 and 5130
  const hit = (shiftKey) => { elements.find.onkeydown({ key: "Enter", shiftKey, preventDefault() {} }); return elements.hits.textContent; };
  same([hit(false), hit(true), hit(true)], ["1 of 6", "6 of 6", "5 of 6"]);
  elements.find.value = "nothing of this";
  elements.next.onclick();
  same(elements.hits.textContent, "no line");
  elements.save.onclick();
  assert.ok(made.includes("gasWatch") && made.startsWith("<svg") && calls.some((it) => it[0] === "click" && it[1] === "mine.svg"));
  for (const id of ["fit", "in", "out", "open", "dark", "explain", "back"]) elements[id].onclick();
  for (let x = 0; x < 1000; x += 3) elements.canvas.onpointermove({ ...event, offsetX: x, offsetY: (x * 7) % 600 });
  painted();
  elements.paste.oninput({ target: { value: "0 p release\n5 p toString\n" } });
  same([elements.troubles.hidden, elements.troubles.children[1].children[0].textContent], [false, "line 2: 5 p toString: toString is no event"]);
  painted();
}

/** Milliseconds of the processor for a call: the least, the middle and the greatest of so many. */
function timed(times, call) {
  const all = [];
  for (let turn = 0; turn < times; turn++) {
    const start = process.cpuUsage();
    call(turn);
    const { user, system } = process.cpuUsage(start);
    all.push((user + system) / 1000);
  }
  all.sort((a, b) => a - b);
  return [all[0], all[times >> 1], all[times - 1]].map((it) => it.toFixed(1)).join(" / ");
}

/** The times of a long log. */
function long(file) {
  const text = readFileSync(file, "utf8");
  let run, model;
  console.log(`read ${timed(5, () => { run = parse(text); })} ms of the processor (least / middle / greatest)`);
  console.log(`lanes ${timed(5, () => { model = build(run); })} ms; ${logic.summary(model)}`);
  const whole = logic.fitted(model, 1600, 900);
  console.log(`layout of the whole run ${timed(20, () => logic.layout(model, whole))} ms`);
  console.log(`layout of 200 frames, a hundredth of the run to 40 pixels a tick ${timed(200, (turn) => {
    const scale = 100 * whole.scale * Math.pow(logic.CLOSEST / (100 * whole.scale), turn / 199);
    logic.layout(model, logic.moved(model, { ...whole, scale }, model.end * ((turn * 37) % 100) / 100, 0));
  })} ms`);
  console.log(`search of a text ${timed(5, () => logic.search(run, "raise"))} ms`);
}

for (const [name, test] of Object.entries(tests)) {
  try { test(); } catch (error) { console.error(`view/try.js: ${name} is not as expected`); throw error; }
}
console.log(`view/try.js: ${Object.keys(tests).length} tests of the page's logic hold`);
if (process.argv[2]) long(process.argv[2]);
