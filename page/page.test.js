// Tests of what a page makes of a log: node --test page. What is expected is worked out by hand from docs/protocol.md and docs/state.md.
'use strict';
const assert = require('node:assert');
const fs = require('node:fs');
const path = require('node:path');
const test = require('node:test');

const page = fs.readFileSync(path.join(__dirname, 'page.html'), 'utf8');
const box = { exports: {} };
new Function('module', page.slice(page.lastIndexOf('<script>') + 8, page.lastIndexOf('</script>')))(box);
const { Run, readEntry, readEvent, readMessage, isSmall, contentsIn, reportLines, sentences, family } = box.exports;

const SCRIPT = `fn sq(n: int) -> int { return n * n; }
fn main() -> int {
    let r = remote(1) sq(7);
    print get r;
    return 0;
}
`;
// The run of docs/reading-a-log.md in which worker 2 dies, with its messages.
const LOG = `n1 opens w1
w1 begins a1.0#0: main()
1. claim 1: w1 takes job 1
2. commit 1: w1 has done job 1
    a1.0#0 (main) makes o1.1: remote(1) sq(7)
    w1 sends message 1 to n1: Ask(a1.1#0, 0)
3. deliver 1: message 1 arrives
    n1 opens w2
    n1 sends message 2 to w1: Give(a1.1#0, 0, w2)
4. deliver 2: message 2 arrives
    w2 begins a1.1#0: sq(7)
    w1 sends message 3 to w2: Push(a1.1#0, remote(1) sq(7))
5. deliver 3: message 3 arrives
6. kill 2: w2 dies
7. notice 1 2: w1 learns that w2 is dead
    w1 sends message 4 to n1: Ask(a1.1#1, 0)
8. claim 2
    refused 30: The first worker that an event names does not live: it was never opened, or it is dead.
9. deliver 4: message 4 arrives
    n1 opens w3
    n1 sends message 5 to w1: Give(a1.1#1, 0, w3)
10. deliver 5: message 5 arrives
    w3 begins a1.1#1 again: sq(7)
    w1 sends message 6 to w3: Push(a1.1#1, remote(1) sq(7))
11. deliver 6: message 6 arrives
12. claim 3: w3 takes job 2
13. commit 2: w3 has done job 2
    a1.1#1 (sq) ends with 49
    w3 sends message 7 to w1: Finished(a1.1#1, n1, [], 49)
14. deliver 7: message 7 arrives
    w1 accepts a1.1#1 (sq)
    a1.0#0 (main) gets o1.1: 49
    w1 sends message 8 to w3: FinishedAck(a1.1#1)
15. deliver 8: message 8 arrives
    w3 sends message 9 to n1: Back(a1.1#1)
16. deliver 9: message 9 arrives
17. claim 1: w1 takes job 3 (seat 2)
18. commit 3: w1 has done job 3 (seat 2)
    main prints 49
    a1.0#0 (main) ends with 0
    w1 releases o1.1
`;
const REPORT = ['print 49', 'main value 0', 'attempt a1.1#0 w2 open', 'attempt a1.1#1 w3 accepted', 'released o1.1', 'refused 30 claim 2'];
const run = () => new Run({ cluster: { nodes: 1, slots: 2 }, script: SCRIPT, log: LOG, report: REPORT.join('\n') + '\n', state: 'behind event 18 of 18\n' });

const TWO = `fn two(n: int) -> (int, [int]) { return n, [n, n, n, n, n, n, n, n]; }
fn main() -> int {
    let a, b = remote(1) two(4);
    return get a + len(get b);
}
`;
// A call of two results, of which the second, a large one, is lost: both are made again.
const LOST = `n1 opens w1
w1 begins a1.0#0: main()
1. claim 1: w1 takes job 1
2. commit 1: w1 has done job 1
    a1.0#0 (main) makes o1.1, o1.2: remote(1) two(4)
    w1 sends message 1 to n1: Ask(a1.1#0, 0)
3. deliver 1: message 1 arrives
    n1 opens w2
    n1 sends message 2 to w1: Give(a1.1#0, 0, w2)
4. deliver 2: message 2 arrives
    w2 begins a1.1#0: two(4)
    w1 sends message 3 to w2: Push(a1.1#0, remote(1) two(4))
5. deliver 3: message 3 arrives
6. claim 2: w2 takes job 2
7. commit 2: w2 has done job 2
    a1.1#0 (two) ends with 4, [4, 4, 4, 4, 4, 4, 4, 4]
    w2 sends message 4 to w1: Finished(a1.1#0, n1, [], 4; [])
8. deliver 4: message 4 arrives
    w1 accepts a1.1#0 (two)
    a1.0#0 (main) gets o1.1: 4
    w1 sends message 5 to w2: FinishedAck(a1.1#0)
9. deliver 5: message 5 arrives
    w2 sends message 6 to n1: Back(a1.1#0)
10. lose 1 o1.2: n1 loses its copies of o1.2
11. deliver 6: message 6 arrives
12. claim 1: w1 takes job 3
13. commit 3: w1 has done job 3
    w1 sends message 7 to n1: Ask(a1.1#1, 0)
14. deliver 7: message 7 arrives
    n1 sends message 8 to w1: Give(a1.1#1, 0, w2)
15. deliver 8: message 8 arrives
    w2 begins a1.1#1 again: two(4)
    w1 sends message 9 to w2: Push(a1.1#1, remote(1) two(4))
16. deliver 9: message 9 arrives
17. claim 2: w2 takes job 4
18. commit 4: w2 has done job 4
    a1.1#1 (two) ends with 4, [4, 4, 4, 4, 4, 4, 4, 4]
    w2 sends message 10 to w1: Finished(a1.1#1, n1, [], 4; [])
19. deliver 10: message 10 arrives
    w1 accepts a1.1#1 (two)
    a1.0#0 (main) gets o1.2: [4, 4, 4, 4, 4, 4, 4, 4]
    w1 sends message 11 to w2: FinishedAck(a1.1#1)
20. deliver 11: message 11 arrives
    w2 sends message 12 to n1: Back(a1.1#1)
21. deliver 12: message 12 arrives
22. claim 1: w1 takes job 5
23. commit 5: w1 has done job 5
    a1.0#0 (main) ends with 12
    w1 releases o1.1
    w1 releases o1.2
    w1 sends message 13 to n1: Unhold(o1.2, o1.2, Released)
24. deliver 13: message 13 arrives
`;
const TWO_REPORT = ['main value 12', 'attempt a1.1#0 w2 accepted', 'attempt a1.1#1 w2 accepted', 'released o1.1', 'released o1.2'];
const both = () => new Run({ cluster: { nodes: 1, slots: 2 }, script: TWO, log: LOST, report: TWO_REPORT.join('\n') + '\n', state: '' });

const shown = (state) => {
  const lines = [];
  for (const node of state.nodes.values()) lines.push(state.nodeLine(node), state.workersLine(node));
  for (const worker of state.workers.values()) lines.push(state.workerLine(worker), state.runLine(worker));
  return lines.filter((line) => line !== '');
};

test('reads events, entries and messages', () => {
  const event = readEvent('17. claim 1: w1 takes job 3 (seat 2)');
  assert.deepStrictEqual([event.number, event.kind, event.args], [17, 'claim', ['1']]);
  assert.deepStrictEqual(readEvent('12. evict 1 o1.2: n1 drops its secondary copies of o1.2').args, ['1', 'o1.2']);
  assert.deepStrictEqual(readEvent('8. claim 2 (seat 1)').args, ['2']);
  const fault = readEntry('a1.0#0 (main) ends with a fault at get o1.3: PutLost o1.1 (it was put, and its copy was lost)');
  assert.deepStrictEqual([fault.kind, fault.object, fault.name], ['faults', 'o1.3', 'main']);
  const birth = readEntry('a1.0#0 (main) makes o1.3: remote(2) inc(get o1.1, 5)');
  assert.deepStrictEqual([birth.kind, birth.object, birth.text], ['makes', 'o1.3', 'remote(2) inc(get o1.1, 5)']);
  assert.deepStrictEqual(readEntry('w3 begins a1.3#1 again: inc(get o1.1, 5)').attempt, 'a1.3#1');
  assert.deepStrictEqual(readEntry('a1.3#0 (inc) gets o1.1: trap DivZero').text, 'trap DivZero');
  const message = readMessage('w1 sends message 13 to n2: Fetch(o1.1, 0)', 2, 7);
  assert.deepStrictEqual([message.number, message.from, message.to, message.kind], [13, 'w1', 'n2', 'Fetch']);
});

test('tells small contents by their cells', () => {
  for (const text of ['49', 'trap DivZero', '[]', '[1, 2, 3, 4, 5, 6, 7]', '[[1, 2], [3, 4, 5]]', '[o1.1, o2.3]']) assert.ok(isSmall(text), text);
  for (const text of ['[1, 2, 3, 4, 5, 6, 7, 8]', '[[1], [2], [3], [4]]', '[0, 37, 74, .. 1,997 items]']) assert.ok(!isSmall(text), text);
});

test('knows what is alive behind an event', () => {
  const it = run();
  assert.deepStrictEqual(shown(it.stateAt(2)), ['n1: alive, 0 of 2 slots taken', 'n1: workers w1', 'w1: alive, on n1, driver',
    'w1: a1.0#0 (main) waits for o1.1']);
  assert.deepStrictEqual(shown(it.stateAt(3)), ['n1: alive, 1 of 2 slots taken by w2', 'n1: workers w1 w2', 'w1: alive, on n1, driver',
    'w1: a1.0#0 (main) waits for o1.1', 'w2: alive, on n1, given to a1.1#0 (sq)']);
  assert.deepStrictEqual(shown(it.stateAt(5)).slice(-1), ['w2: a1.1#0 (sq) is ready']);
  assert.deepStrictEqual(shown(it.stateAt(6)), ['n1: alive, 0 of 2 slots taken', 'n1: workers w1 w2', 'w1: alive, on n1, driver',
    'w1: a1.0#0 (main) waits for o1.1', 'w2: dead, on n1']);
  assert.deepStrictEqual(shown(it.stateAt(12)).slice(-1), ['w3: a1.1#1 (sq) took job 2']);
  assert.deepStrictEqual(shown(it.stateAt(18)), ['n1: alive, 0 of 2 slots taken', 'n1: workers w1 w2 w3', 'w1: alive, on n1, driver',
    'w1: a1.0#0 (main) ended', 'w2: dead, on n1', 'w3: alive, on n1, idle', 'w3: a1.1#1 (sq) ended']);
});

test('knows how an object stands', () => {
  const it = run();
  const line = (at) => it.stateAt(at).objectLine('o1.1');
  assert.strictEqual(line(2), 'o1.1: made by sq, owner w1, pending: a1.1#0 asked n1 for a worker');
  assert.strictEqual(line(4), 'o1.1: made by sq, owner w1, pending: a1.1#0 began on w2');
  assert.strictEqual(line(7), 'o1.1: made by sq, owner w1, pending: a1.1#1 asked n1 for a worker');
  assert.strictEqual(line(14), 'o1.1: made by sq, owner w1, settled by a1.1#1');
  assert.strictEqual(line(18), 'o1.1: made by sq, owner w1, released');
});

test('goes back as it went on', () => {
  const it = run(), seen = [];
  for (let at = 0; at <= it.last; at++) seen.push(shown(it.stateAt(at)));
  let state = it.stateAt(it.last);
  for (let at = it.last; at >= 0; at--) { state = it.stateAt(at, state); assert.deepStrictEqual(shown(state), seen[at]); }
});

test('makes the report once more', () => assert.deepStrictEqual(reportLines(run()), REPORT));

test('tells why a task runs again, and where it was made', () => {
  const it = run(), told = sentences(it, 'o1.1', it.last).map((line) => `${line.at} ${line.text}`);
  assert.deepStrictEqual(told, ['2 a1.0#0 (main) made it, line 3: remote(1) sq(7)', '4 a1.1#0 began on w2 of n1', '6 w2 died, where a1.1#0 had run',
    '10 a1.1#1 began on w3 of n1 again, since w2 died in event 6, with a1.1#0 on it', '13 a1.1#1 ended: 49', '14 w1 accepted a1.1#1',
    '18 w1 released it: nothing needed it any more']);
  assert.deepStrictEqual(sentences(it, 'o1.1', 4).length, 2);
});

test('tells contents apart', () => {
  assert.deepStrictEqual(contentsIn('4, [1, [2, 3]], o1.1, trap DivZero, [0, 37, 74, .. 1,997 items]'),
    ['4', '[1, [2, 3]]', 'o1.1', 'trap DivZero', '[0, 37, 74, .. 1,997 items]']);
  assert.deepStrictEqual(contentsIn('49'), ['49']);
});

test('knows each result of a call', () => {
  const it = both(), line = (id, at) => it.stateAt(at).objectLine(id);
  assert.deepStrictEqual(readEntry('a1.0#0 (main) makes o1.3, o1.4: remote(3) two(4)').objects, ['o1.3', 'o1.4']);
  assert.strictEqual(line('o1.1', 7), 'o1.1: made by two, owner w1, pending: a1.1#0 began on w2');
  assert.strictEqual(line('o1.2', 7), 'o1.2: made by two, owner w1, comes with o1.1');
  for (const id of ['o1.1', 'o1.2']) assert.strictEqual(line(id, 8), `${id}: made by two, owner w1, settled by a1.1#0`);
  assert.strictEqual(line('o1.1', 15), 'o1.1: made by two, owner w1, pending: a1.1#1 began on w2');
  assert.strictEqual(line('o1.2', 15), 'o1.2: made by two, owner w1, comes with o1.1');
  assert.strictEqual(line('o1.2', 19), 'o1.2: made by two, owner w1, settled by a1.1#1');
  const copies = (at) => {
    const state = it.stateAt(at), node = state.node('n1');
    return [...node.primaries].map((copy) => state.copyLine(node, 'primary', copy));
  };
  assert.deepStrictEqual(copies(7), ['n1: primary copy of o1.2 by a1.1#0']);
  assert.deepStrictEqual(copies(10), []);
  assert.deepStrictEqual(copies(18), ['n1: primary copy of o1.2 by a1.1#1']);
  assert.deepStrictEqual(copies(24), []);
  assert.deepStrictEqual(reportLines(it), TWO_REPORT);
});

test('tells of each result with which others it was made, and that any of them was lost', () => {
  const it = both(), told = (id) => sentences(it, id, it.last).map((line) => `${line.at} ${line.text}`);
  assert.deepStrictEqual(told('o1.2'), ['2 a1.0#0 (main) made it with o1.1, line 3: remote(1) two(4), result 2', '4 a1.1#0 began on w2 of n1',
    '7 a1.1#0 ended: 4, [4, 4, 4, 4, 4, 4, 4, 4]', '8 w1 accepted a1.1#0', '15 a1.1#1 began on w2 of n1 again, since n1 lost its copy of o1.2 in event 10',
    '18 a1.1#1 ended: 4, [4, 4, 4, 4, 4, 4, 4, 4]', '19 w1 accepted a1.1#1', '23 w1 released it: nothing needed it any more']);
  assert.deepStrictEqual(told('o1.1').slice(1, 5), told('o1.2').slice(1, 5));
  assert.strictEqual(told('o1.1')[0], '2 a1.0#0 (main) made it with o1.2, line 3: remote(1) two(4)');
});

test('knows messages under way', () => {
  const it = run();
  assert.deepStrictEqual([...it.stateAt(4).flying.keys()], [3]);
  assert.deepStrictEqual([...it.stateAt(7).flying.keys()], [4]);
  assert.deepStrictEqual([...it.stateAt(18).flying.keys()], []);
});

test('layers a family', () => {
  const more = '    a1.0#0 (main) makes o1.2: put [o1.1]\n    a1.0#0 (main) makes o1.3: remote(0) sq(o1.2)\n';
  const log = LOG.replace('    w1 sends message 1 to', more + '    w1 sends message 1 to');
  const it = new Run({ cluster: { nodes: 1, slots: 2 }, script: SCRIPT, log, report: '', state: '' });
  assert.deepStrictEqual([...family(it, 'o1.2', 9)], [['o1.2', 0], ['o1.1', -1], ['o1.3', 1]]);
});

test('an empty run has a state', () => {
  const script = 'fn main() -> int { return 0; }', log = 'n1 opens w1\nw1 begins a1.0#0: main()\n';
  const it = new Run({ cluster: { nodes: 2, slots: 1 }, script, log, report: '', state: '' });
  assert.deepStrictEqual(shown(it.stateAt(0)), ['n1: alive, 1 of 1 slots taken by w1', 'n1: workers w1', 'n2: alive, 0 of 1 slots taken', 'n2: workers',
    'w1: alive, on n1, driver', 'w1: a1.0#0 (main) is ready']);
});
