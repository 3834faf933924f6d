// What the picture needs of the two files, read by the browser's XML reader. It judges nothing: what is accepted, and why not, the module says.
const decoder = new TextDecoder();

function documentOf(bytes) {
  const read = text => new DOMParser().parseFromString(text, 'text/xml');
  const text = decoder.decode(bytes);
  const first = read(text);
  if (!first.querySelector('parsererror')) return first;
  // The module expands no entities, so a lone & may stand in a name.
  const again = read(text.replace(/&(?!(lt|gt|amp|quot|apos);)/g, '&amp;'));
  return again.querySelector('parsererror') ? null : again;
}

// Characters that aren't shown, as the module's texts have it: controls, marks of direction, joiners, selectors, tags, private planes, and U+FFFD.
const UNPRINTED = /[\0-\x1f\x7f-\x9f\xad\u061c\u180b-\u180f\u200b-\u200f\u2028-\u202e\u2060-\u206f\ufe00-\ufe0f\ufeff\ufff0-\uffff\u{1d173}-\u{1d17a}\u{e0000}-\u{10ffff}]/gu;

// A name that may be shown, as the module's texts have it: in one line, of at most 40 characters.
function plainName(name) {
  const clean = (name || '').replace(/^[ \t\r\n]+|[ \t\r\n]+$/g, '').replace(/[\t\r\n]/g, ' ').replace(UNPRINTED, '?');
  const letters = [...clean];
  return letters.length > 40 ? letters.slice(0, 37).join('') + '...' : clean;
}

// The value of the first of these attributes that isn't empty, by the numbers that the file gives.
function namesIn(document, tag, count, attributes) {
  const names = Array(count).fill('');
  for (const it of document.querySelectorAll(tag)) {
    const id = Number(it.getAttribute('id'));
    if (id < count) names[id] = attributes.map(name => plainName(it.getAttribute(name))).find(name => name) || '';
  }
  return names;
}

// The name of each team, with the number before it where two are called alike.
function labelsOf(names) {
  const shown = names.map((name, i) => name || `team ${i}`);
  return new Set(shown).size === shown.length ? shown : shown.map((name, i) => `#${i} ${name}`);
}

// A short code for each team: a short name where each has one, else letters of the name's words, else the number.
function codesOf(names, shortNames) {
  if (shortNames.every(name => name && name.length <= 4) && new Set(shortNames).size === shortNames.length) return shortNames;
  const codes = names.map(name => {
    const words = name.split(/[^\p{L}\p{N}]+/u).filter(word => word);
    return words.length > 1 ? words[0].slice(0, 2) + words[words.length - 1].slice(0, 1) : name.slice(0, 3);
  });
  return codes.map((code, i) => code && codes.indexOf(code) === codes.lastIndexOf(code) ? code : String(i));
}

const CLASSES = new Set(['CA1', 'CA2', 'CA3', 'CA4', 'GA1', 'BR1', 'BR2', 'FA2', 'SE1']);

// The league of a file, as far as the picture needs it, or null where the browser's reader refuses the file.
function leagueOf(bytes) {
  const document = documentOf(bytes);
  if (!document || document.documentElement.tagName !== 'Instance') return null;
  const n = document.querySelectorAll('Resources > Teams > team').length;
  const teams = 'Resources > Teams > team', names = namesIn(document, teams, n, ['publicName', 'name']);
  const slots = namesIn(document, 'Resources > Slots > slot', 2 * (n - 1), ['publicName', 'name']);
  const constraints = [...document.querySelectorAll('Constraints *')].filter(it => CLASSES.has(it.tagName));
  const mode = document.querySelector('Format > gameMode');
  return {n, names, labels: labelsOf(names), codes: codesOf(names, namesIn(document, teams, n, ['name'])), slots, constraints, isPhased: !!mode && mode.textContent.trim() === 'P'};
}

// The games of a season's file, in order: slot, home team, away team.
function gamesOf(bytes) {
  const document = documentOf(bytes);
  if (!document) return null;
  const number = (it, name) => Number(it.getAttribute(name));
  const games = [...document.querySelectorAll('Solution > Games > ScheduledMatch')].map(it => ({home: number(it, 'home'), away: number(it, 'away'), slot: number(it, 'slot')}));
  return games.sort((a, b) => a.slot - b.slot || a.home - b.home || a.away - b.away);
}

const slotName = (league, slot) => (league.slots[slot] ? `${league.slots[slot]} (slot ${slot})` : `slot ${slot}`);

// cells[team][slot] has the team's games there.
function cellsOf(league, games) {
  const cells = Array.from({length: league.n}, () => Array.from({length: 2 * (league.n - 1)}, () => []));
  for (const game of games) {
    cells[game.home]?.[game.slot]?.push(game);
    cells[game.away]?.[game.slot]?.push(game);
  }
  return cells;
}

function element(tag, text, className) {
  const it = document.createElement(tag);
  if (text !== undefined) it.textContent = text;
  if (className) it.className = className;
  return it;
}

// The head of the grid: a slot a column, a button that says up to where the season was played.
function headOf(league, onSlot) {
  const row = document.createElement('tr');
  row.append(element('th', 'team'));
  const named = league.slots.some((name, s) => name && name.toLowerCase() !== `slot ${s}` && name !== String(s));
  for (let s = 0; s < league.slots.length; s++) {
    const th = document.createElement('th'), button = document.createElement('button');
    th.scope = 'col';
    if (league.isPhased && s === league.n - 1) th.className = 'half';
    button.type = 'button';
    button.append(element('span', String(s)));
    if (named) button.append(element('span', league.slots[s], 'name'));
    button.title = `${slotName(league, s)}: played up to before this slot`;
    button.onclick = () => onSlot(s);
    th.append(button);
    row.append(th);
  }
  return row;
}

function cellOf(league, team, games, before) {
  const td = document.createElement('td');
  if (games.length !== 1) {
    td.textContent = games.length ? `#${games.length}` : '–';
    td.className = 'odd';
    td.title = `${league.labels[team]}: ${games.length ? `${games.length} games` : 'no game'}`;
    return td;
  }
  const [game] = games, isHome = game.home === team, other = isHome ? game.away : game.home;
  const isBreak = before.some(it => (it.home === team) === isHome);
  td.append(element('span', isHome ? 'H' : 'A', 'side'), league.codes[other] + (isBreak ? '*' : ''));
  td.className = (isHome ? 'home' : 'away') + (isBreak ? ' break' : '');
  td.title = `${league.labels[team]} ${isHome ? 'at home to' : 'away at'} ${league.labels[other]}, ${slotName(league, game.slot)}${isBreak ? ', a break' : ''}`;
  return td;
}

// Draws the season, and returns what lights games: a call with a test of a team, a slot and a game, or with null for none.
function draw(table, league, games, played, onSlot) {
  const cells = cellsOf(league, games), head = document.createElement('thead'), body = document.createElement('tbody'), drawn = [];
  head.append(headOf(league, onSlot));
  for (let team = 0; team < league.n; team++) {
    const row = document.createElement('tr'), th = element('th');
    th.scope = 'row';
    th.title = league.labels[team];
    if (league.codes[team] !== league.labels[team]) th.append(element('span', league.codes[team], 'code'));
    th.append(` ${league.labels[team]}`);
    row.append(th);
    cells[team].forEach((here, slot) => {
      const td = cellOf(league, team, here, slot ? cells[team][slot - 1] : []);
      if (league.isPhased && slot === league.n - 1) td.classList.add('half');
      if (slot < played) td.classList.add('played');
      row.append(td);
      drawn.push({td, team, slot, here});
    });
    body.append(row);
  }
  table.replaceChildren(head, body);
  // How wide the columns of slots are, in sizes of a letter: the printed sheet has room for them.
  const columns = [...head.querySelectorAll('th')].slice(1).map(it => it.getBoundingClientRect());
  table.style.setProperty('--wide', columns.length ? (columns.at(-1).right - columns[0].left) / parseFloat(getComputedStyle(table).fontSize) : 0);
  table.style.setProperty('--teams', league.n);
  return isLit => {
    let count = 0;
    for (const {td, team, slot, here} of drawn) {
      const lit = !!isLit && isLit(team, slot, here);
      td.classList.toggle('lit', lit);
      count += lit;
    }
    table.classList.toggle('chosen', count > 0);
    return count;
  };
}
