// A small machine of its own, tick by tick, that makes logs to try the page with:
//   node view/simulate.js EVENTS > run.txt
// It knows in each tick who runs, since it decides so; try.js compares that with what the page works out.
"use strict";

/** A step burns its ticks, the last of which does what it says. */
const step = (ticks, ...words) => ({ ticks, words });

/**
 * Seven processes of ranks 1 to 7 over two monitors. `store` broadcasts, `show` waits for it with a limit, `feed` signals,
 * and `take` waits for that; `guard` raises in every third activation. The times that an activation takes differ.
 */
function plant() {
  const busy = (turn, most) => 1 + (turn * 7) % most;
  return {
    monitors: [{ name: "box", ceiling: 1 }, { name: "belt", ceiling: 2 }],
    processes: [
      { name: "store", frame: 200, first: 0, steps: (turn) => [step(9, "get", "level", String(turn % 100)), step(3, "enter", "box"), step(busy(turn, 5), "broadcast", "box", "fresh"), step(2, "leave", "box"), step(3, "end")] },
      { name: "guard", frame: 300, first: 7, steps: (turn) => (turn % 3 === 2 ? [step(4, "enter", "belt"), step(6, "raise", "12"), step(5, "put", "alarm", "1"), step(2, "end")] : [step(4, "enter", "belt"), step(busy(turn, 8), "leave", "belt"), step(2, "end")]) },
      { name: "take", frame: 700, first: 11, steps: () => [step(5, "enter", "belt"), step(3, "wait", "belt", "full", "90"), step(4, "enter", "belt"), step(2, "leave", "belt"), step(9, "put", "out", "7"), step(2, "end")] },
      { name: "feed", frame: 600, first: 31, steps: (turn) => [step(8, "get", "gauge", "3"), step(4, "enter", "belt"), step(busy(turn, 12), "signal", "belt", "full"), step(3, "leave", "belt"), step(3, "end")] },
      { name: "show", frame: 1100, first: 3, steps: () => [step(6, "enter", "box"), step(3, "wait", "box", "fresh", "150"), step(4, "enter", "box"), step(3, "leave", "box"), step(5, "put", "panel", "1"), step(2, "end")] },
      { name: "sum", frame: 1300, first: 0, steps: (turn) => [step(30, "get", "gauge", "3"), step(busy(turn, 160), "enter", "box"), step(11, "leave", "box"), step(40, "end")] },
      { name: "idle", frame: 2900, first: 50, steps: (turn) => [step(20, "enter", "belt"), step(9, "leave", "belt"), step(busy(turn, 300), "put", "panel", "0"), step(3, "end")] },
    ],
  };
}

/** Runs a system until its log has so many lines. Answers the text, and who ran from which tick on. */
function simulate({ monitors, processes }, lines) {
  const ceiling = new Map(monitors.map((it) => [it.name, it.ceiling]));
  const tasks = processes.map((it, place) => ({ ...it, rank: place + 1, turn: 0, next: it.first, state: "idle", queue: [], left: 0, inside: null, wants: null, until: 0 }));
  const log = [`program plant`];
  for (const it of tasks) log.push(`process ${it.name} frame ${it.frame} rank ${it.rank} cost 400 suspend 150 waits 1 block 12 bound ${Math.round(it.frame * 0.8)} data 1 stack 4`);
  for (const it of monitors) log.push(`monitor ${it.name} ceiling ${it.ceiling} words 1`);
  log.push("code 90", "timely");
  const whole = log.length + lines;
  const ran = [];
  const begin = (task) => { task.left = task.queue[0].ticks; };
  const say = (tick, task, ...words) => log.push(`${tick} ${task.name} ${words.join(" ")}`);
  const wakeOne = (task) => { task.state = "ready"; task.wants = null; begin(task); };
  for (let tick = 0; log.length < whole; tick++) {
    for (const task of tasks) {
      if (task.next === tick) {
        if (task.state !== "idle") throw new Error(`${task.name} overruns at ${tick}`);
        task.next += task.frame;
        task.state = "ready";
        task.queue = task.steps(task.turn++);
        begin(task);
        say(tick, task, "release");
      } else if (task.state === "waiting" && task.until === tick) {
        say(tick, task, "timeout", ...task.wants.split(" "), "10");
        task.queue = [step(4, "put", "alarm", "2"), step(2, "end")];
        wakeOne(task);
      }
    }
    const level = (task) => (task.inside === null ? task.rank : Math.min(task.rank, ceiling.get(task.inside)) - 0.5);
    let runner = null;
    for (const task of tasks) if (task.state === "ready" && (runner === null || level(task) < level(runner))) runner = task;
    if (ran.length === 0 || ran[ran.length - 1].task !== runner) ran.push({ tick, task: runner });
    if (runner === null || --runner.left > 0) continue;
    const [kind, ...words] = runner.queue.shift().words;
    if (runner.queue.length > 0) begin(runner);
    act(tick, runner, kind, words);
  }
  function act(tick, task, kind, words) {
    const waiting = () => tasks.filter((it) => it.state === "waiting" && it.wants === words.join(" "));
    if (kind === "enter") task.inside = words[0];
    if (kind === "leave" || kind === "raise") task.inside = null;
    if (kind === "end") task.state = "idle";
    if (kind === "wait") {
      say(tick, task, kind, words[0], words[1]);
      Object.assign(task, { inside: null, state: "waiting", wants: `${words[0]} ${words[1]}`, until: tick + 1 + Number(words[2]) });
      return;
    }
    if (kind === "signal") {
      const first = waiting()[0];
      say(tick, task, kind, ...words, first ? first.name : "-");
      if (first) wakeOne(first);
      return;
    }
    if (kind === "broadcast") {
      const all = waiting();
      say(tick, task, kind, ...words, String(all.length));
      all.forEach(wakeOne);
      return;
    }
    say(tick, task, kind, ...words);
  }
  return { text: log.join("\n") + "\n", ran: ran.map(({ tick, task }) => ({ tick, name: task === null ? null : task.name })) };
}

module.exports = { plant, simulate };
if (require.main === module) process.stdout.write(simulate(plant(), Number(process.argv[2] || 1000000)).text);
