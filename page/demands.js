// The demands of a league, as the module's texts say them: each number stands in the report of `validate`, each sentence and reason in a text of `show`.

const MOST_REASONS = 20; // lines of a demand that are written out

// The lines `constraint` of a report, and its totals.
function reportOf(text) {
  const report = {constraints: [], structure: [0, 0, 0]};
  for (const line of text.split('\n')) {
    const words = line.split(' ');
    if (words[0] === 'constraint') {
      const [, number, tag, type, , penalty, , sum] = words;
      report.constraints.push({number: Number(number), tag, isHard: type === 'HARD', sum: BigInt(sum), cost: BigInt(penalty) * BigInt(sum), reasons: []});
    } else if (words[0] === 'structure') report.structure = [words[2], words[4], words[6]].map(Number);
    else if (words.length === 2) report[words[0]] = words[1];
  }
  return report;
}

// What `show INSTANCE --demands` says: by the number of each demand its class, whether it is hard, and what it asks.
function sentencesOf(text) {
  const sentences = new Map();
  for (const line of text.split('\n')) {
    const head = /^(hard|soft) (\d+) ([A-Z0-9]+): (.*)$/.exec(line);
    if (head) sentences.set(Number(head[2]), {number: Number(head[2]), tag: head[3], isHard: head[1] === 'hard', asks: head[4], sum: 0n, cost: 0n, reasons: []});
  }
  return sentences;
}

// The missed demands that `show` tells, by their numbers: what each asks, and the lines that say why it is missed.
function shownOf(text) {
  const shown = new Map();
  let last = null;
  for (const line of text.split('\n')) {
    const head = /^(?:hard|soft) (\d+) [A-Z0-9]+: (.*); missed by \d+, costs \d+$/.exec(line);
    if (head) shown.set(Number(head[1]), last = {asks: head[2], reasons: []});
    else if (last && line.startsWith('  ')) last.reasons.push(line);
    else last = null;
  }
  return shown;
}

const numbersIn = list => [...new Set((list || '').split(';').filter(it => it).map(Number))].sort((a, b) => a - b);

// The games that a text names as `HOME - AWAY (SLOT)`. Where one such name ends with another, the longer one stands there.
function gamesTold(league, games, text) {
  const byEnd = new Map();
  for (const game of games) {
    const name = `${league.labels[game.home]} - ${league.labels[game.away]} (${game.slot})`;
    for (let at = text.indexOf(name); at >= 0; at = text.indexOf(name, at + 1)) {
      const end = at + name.length;
      if (!byEnd.has(end) || at < byEnd.get(end).at) byEnd.set(end, {at, game});
    }
  }
  return new Set([...byEnd.values()].map(it => it.game));
}

// The test of a cell that lights what the reasons of `show` name: games, and for BR2 and FA2 a team's slots behind its name.
function namedBy(league, games, reasons) {
  const told = gamesTold(league, games, reasons.join('\n'));
  const slotsOfTeam = league.labels.map(label => {
    const slots = new Set();
    for (const line of reasons) {
      for (const part of line.replace(/^.*: /, '').split('; ').map(it => it.trim())) {
        const rest = part.startsWith(`${label} `) ? part.slice(label.length) : '';
        const isList = /^ in [\d, and to]+$/.test(rest) || /^ (at home|away) \([\d, ]+\)(, away \([\d, ]+\))?$/.test(rest);
        if (isList) for (const number of rest.match(/\d+/g)) slots.add(Number(number));
      }
    }
    return slots;
  });
  return (team, slot, here) => slotsOfTeam[team].has(slot) || here.some(game => told.has(game));
}

// The test of a cell that lights the teams and slots that a demand's line names.
function spokenOf(constraint) {
  const attribute = name => constraint.getAttribute(name);
  const slots = constraint.hasAttribute('slots') ? new Set(numbersIn(attribute('slots'))) : null;
  const isSlot = slot => !slots || slots.has(slot);
  if (constraint.hasAttribute('meetings')) {
    const teams = new Set(attribute('meetings').split(/[;,]/).filter(it => it.trim()).map(Number));
    return (team, slot) => isSlot(slot) && teams.has(team);
  }
  const teams = new Set(numbersIn(attribute('teams') ?? attribute('teams1')));
  return (team, slot) => teams.has(team) && isSlot(slot);
}

// Missed demands first, hard before soft, then by their cost, then by number.
function inOrder(constraints) {
  const rank = it => (it.sum > 0n ? (it.isHard ? 0 : 1) : 2);
  return [...constraints].sort((a, b) => rank(a) - rank(b) || (a.cost < b.cost ? 1 : a.cost > b.cost ? -1 : a.number - b.number));
}

// A demand as an item of a list. `onPick` lights its cells, where there is a picture.
function itemOf(it, onPick) {
  const li = element('li', undefined, it.isHard ? 'hard' : 'soft'), box = element(onPick ? 'button' : 'div', undefined, 'demand');
  box.append(element('b', it.tag ? `${it.number} ${it.tag} ${it.isHard ? 'hard' : 'soft'}` : `demand ${it.number}`), ' ');
  if (it.sum > 0n) box.append(element('span', it.isHard ? `hard, missed by ${it.sum}` : `costs ${it.cost}`, 'cost'));
  if (it.asks) box.append(element('span', it.asks, 'asks'));
  for (const reason of it.reasons.slice(0, MOST_REASONS)) box.append(element('span', reason.trim(), 'reason'));
  if (it.reasons.length > MOST_REASONS) box.append(element('span', `and ${it.reasons.length - MOST_REASONS} more, which a click shows too`, 'reason'));
  if (onPick) {
    box.type = 'button';
    box.setAttribute('aria-pressed', 'false');
    box.onclick = () => onPick(it, box);
  }
  li.append(box);
  return li;
}
