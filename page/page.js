// What the page does. Texts of files are put in by textContent alone, so that no markup in them is read.
const $ = id => document.getElementById(id);
const isAble = isAbleToRun();
const runs = isAble ? new Runs(moduleOf(MODULE), WORKER) : null;
const EMPTY_SEASON = new TextEncoder().encode('<Solution><Games></Games></Solution>');
// The files with their names, what is shown of them, and the search that goes on. `cost` is that of the season here, where the league accepts it.
const state = {
  league: null, season: null, names: {}, cost: null, sentences: null, view: null, games: null, played: 0, light: null, text: '', textName: '', search: null,
};

// An answer with its texts read.
const withTexts = answer => ({...answer, bytes: answer.text, text: decoder.decode(answer.text), told: decoder.decode(answer.told)});

// A run that is waited for.
const robin = async (words, files) => withTexts(await runs.start(words, files).answer);

const filesNow = () => [state.league, state.season];

const MADE = 'made here';
const isMade = kind => (state.names[kind] || '').startsWith(MADE);

function say(verdict, kind, advice) {
  $('verdict').textContent = verdict;
  $('verdict').className = `verdict ${kind}`;
  $('advice').textContent = advice || '';
  $('members').replaceChildren();
}

function showText(text, name) {
  state.text = text;
  state.textName = name;
  $('text').textContent = text.length > 200000 ? `${text.slice(0, 200000)}\n.. (saved whole)` : text;
  $('text-box').hidden = text === '';
}

function renew() {
  const busy = !!state.search, both = !!(state.league && state.season);
  $('solve').disabled = busy || !state.league;
  $('explain').disabled = busy || !state.league;
  $('prove').disabled = busy || !both;
  $('resume').disabled = busy || !both || state.played === 0;
  $('stop').disabled = !busy;
  $('made').disabled = busy;
  $('put-away').hidden = !state.season;
  $('save-league').hidden = !isMade('league');
  $('resume').textContent = state.played ? `Plan slots ${state.played} to ${2 * (state.view?.n ?? 1) - 3} again` : 'Plan the rest again';
  $('saving').hidden = $('picture').hidden = !(state.view && state.games);
}

// ---- the picture

function drawSeason() {
  $('demands').hidden = true;
  state.games = state.season && state.view ? gamesOf(state.season) : null;
  state.light = null;
  renew();
  if (!state.games) return;
  state.light = draw($('grid'), state.view, state.games, state.played, pickSlot);
  $('both').classList.toggle('small', state.view.slots.length <= 22);
  $('key-half').hidden = !state.view.isPhased;
  $('key-played').textContent = state.played ? `Slots 0 to ${state.played - 1} were played.` : 'Pick a slot to say that those before it were played.';
  const all = element('option', 'all teams');
  all.value = '';
  $('calendar-team').replaceChildren(all, ...state.view.labels.map((label, i) => Object.assign(element('option', label), {value: String(i)})));
}

function pickSlot(slot) {
  state.played = state.played === slot ? 0 : slot;
  const hidden = $('demands').hidden;
  drawSeason();
  $('demands').hidden = hidden;
  release();
  $('grid').querySelectorAll('thead button')[slot].focus();
}

// No demand is picked any more.
function release() {
  for (const button of document.querySelectorAll('.demand[aria-pressed=true]')) button.setAttribute('aria-pressed', 'false');
}

function pickDemand(it, button) {
  const on = button.getAttribute('aria-pressed') !== 'true';
  release();
  button.setAttribute('aria-pressed', String(on));
  if (!state.light) return;
  // Where no game counts, as of a game that is lacking, the cells that the demand speaks of are lit.
  const byReasons = on && it.reasons.length ? state.light(namedBy(state.view, state.games, it.reasons)) : 0;
  if (byReasons === 0) state.light(on ? spokenOf(state.view.constraints[it.number - 1]) : null);
  $('grid').querySelector('td.lit')?.scrollIntoView({block: 'nearest', inline: 'center'});
}

// What a league demands, where no season is judged.
function listLeague(sentences) {
  const all = [...sentences.values()], hard = all.filter(it => it.isHard).length;
  $('demands').hidden = all.length === 0;
  $('demands-said').textContent = `Hard: ${hard}, which must be met. Soft: ${all.length - hard}, which cost something where they are missed.`;
  $('demands-how').textContent = '';
  $('missed').replaceChildren(...all.map(it => itemOf(it)));
  $('met-box').hidden = true;
}

function listDemands(report) {
  const missed = report.constraints.filter(it => it.sum > 0n), met = report.constraints.filter(it => it.sum === 0n);
  const items = list => inOrder(list).map(it => itemOf(it, pickDemand));
  $('demands').hidden = report.constraints.length === 0;
  const count = report.constraints.length, all = count === 1 ? '1 demand' : `${count} demands`, are = many => (many === 1 ? 'is' : 'are');
  $('demands-said').textContent = missed.length ? `${missed.length} of ${all} ${are(missed.length)} missed.` : `${all}, all met.`;
  $('demands-how').textContent = missed.length ? 'A click shows the games that do it.' : '';
  $('missed').replaceChildren(...items(missed));
  $('met').replaceChildren(...items(met));
  $('met-box').hidden = met.length === 0;
  $('met-said').textContent = `${met.length} of ${all} ${are(met.length)} met`;
}

// ---- judging

function verdictOf(report) {
  const cost = report.objective === '0' ? 'It costs nothing.' : `It costs ${report.objective}.`;
  if (report.feasible === 'yes') return `Accepted. ${cost}`;
  const hard = report.constraints.filter(it => it.isHard && it.sum > 0n).length, reasons = [];
  if (report.structure.some(it => it > 0)) reasons.push('it is no double round robin');
  if (hard) reasons.push(hard === 1 ? `1 hard demand is missed (infeasibility ${report.infeasibility})` : `${hard} hard demands are missed (infeasibility ${report.infeasibility})`);
  return `Not accepted: ${reasons.join(', and ')}. The soft demands cost ${report.objective}.`;
}

const refusalOf = answer => (answer.status === 8 ? 'Memory ran out.' : answer.status === 7 ? 'The answer is too long for this page.' : 'Not read: see what is said below.');

// What `show` says of these files: all reasons, or 20 of each demand where all are too long for the page. Null where it says nothing.
async function shown(files) {
  for (const most of ['20000', '20']) {
    const answer = await robin(['show', '1', '2', '--most', most], files);
    if (answer.status < 2) return answer;
  }
  return null;
}

// What the league's demands ask, by their numbers, in the words of `show`; all demands, or those of a list. Empty where that run ends with another status.
async function demanded(...list) {
  const answer = await robin(['show', '1', '--demands', ...list], [state.league]);
  return answer.status === 0 ? sentencesOf(answer.text) : new Map();
}

// The same of all demands, which are asked for once.
const allDemanded = () => state.sentences ??= demanded().catch(() => new Map());

// Judges the season, or the league alone. A later call makes an earlier one's answer void.
let turn = 0;
async function judge(said) {
  const mine = ++turn, files = [state.league, state.season || EMPTY_SEASON];
  renew();
  if (!state.league) {
    if (state.season) say('A season needs its league: drop that too.', '');
    return;
  }
  try {
    const asked = state.season ? shown(files).catch(() => null) : null;
    const answer = await robin(['validate', '1', '2'], files);
    if (mine !== turn) return;
    state.view = null;
    if (answer.status > 1) {
      drawSeason();
      showText(answer.text, 'report.txt');
      return say(refusalOf(answer), 'no', answer.told.trim());
    }
    state.view = leagueOf(state.league);
    const report = reportOf(answer.text);
    state.cost = state.season && report.feasible === 'yes' ? BigInt(report.objective) : null;
    if (!state.season) {
      drawSeason();
      showText('', '');
      say(said || `A league of ${report.teams} teams, with ${report.constraints.length} demands.`, '', 'Drop a season to judge it, or find one.');
      const sentences = await allDemanded();
      return mine === turn ? listLeague(sentences) : undefined;
    }
    say(said ? `${said} ${verdictOf(report)}` : verdictOf(report), report.feasible === 'yes' ? 'yes' : 'no', state.view ? '' : 'There is no picture: the XML reader of this browser refuses a file.');
    showText(answer.text, 'report.txt');
    drawSeason();
    const sentences = await allDemanded(), told = await asked;
    if (mine !== turn || !state.view) return;
    const missed = told ? shownOf(told.text) : new Map();
    for (const it of report.constraints) Object.assign(it, {asks: sentences.get(it.number)?.asks}, missed.get(it.number));
    listDemands(report);
  } catch (error) {
    if (mine === turn) say('The run broke off.', 'no', `${error.message}. The next run begins anew.`);
  }
}

function setSeason(bytes, said) {
  setFile(bytes, 'season', MADE);
  return judge(said);
}

// From now on there is the league alone.
function putAway() {
  Object.assign(state, {season: null, played: 0, cost: null});
  delete state.names.season;
  sayFiles();
  return judge();
}

// ---- files that come in

// The first tag that isn't a comment's says what a file is.
const isLeague = bytes => /<(Instance|Solution)\b/.exec(decoder.decode(bytes).replace(/<!--[\s\S]*?-->/g, ''))?.[1] === 'Instance';

async function takeFiles(blobs, kind) {
  if (!isAble) return;
  for (const blob of [...blobs].slice(0, 2)) {
    const bytes = new Uint8Array(await blob.arrayBuffer());
    setFile(bytes, kind || (isLeague(bytes) ? 'league' : 'season'), blob.name);
  }
  await judge();
}

// Takes a file, and says which files the page holds.
function setFile(bytes, kind, name) {
  if (kind === 'league') {
    if (state.search) state.search.stop();
    state.played = 0;
    state.sentences = null;
  }
  state[kind] = bytes;
  state.names[kind] = name;
  state.cost = null;
  sayFiles();
}

function sayFiles() {
  $('files-said').textContent = ['league', 'season'].filter(it => state.names[it]).map(it => `${it === 'league' ? 'League' : 'Season'}: ${state.names[it]}`).join('. ');
}

function readGiven(kind) {
  const it = $(`given-${kind}`);
  if (!it) return null;
  const bytesOf = text => Uint8Array.from(atob(text), letter => letter.charCodeAt(0));
  const name = decoder.decode(bytesOf(it.dataset.name || ''));
  setFile(bytesOf(it.textContent.trim()), kind, name);
  return name;
}

// ---- searches: at most one at a time, beside which a season may be judged

async function search(what, work) {
  const began = performance.now(), own = {run: null, isStopped: false, note: ''};
  own.stop = () => {
    own.isStopped = true;
    if (own.run) own.run.stop();
  };
  own.robin = async (words, files) => {
    own.run = runs.start(words, files);
    return withTexts(await own.run.answer);
  };
  state.search = own;
  renew();
  const tick = () => { $('progress').textContent = `${what} .. ${Math.floor((performance.now() - began) / 1000)} s${own.note}`; };
  const clock = setInterval(tick, 250);
  tick();
  let ended = '';
  try {
    ended = await work(own);
  } catch (error) {
    if (!own.isStopped) say('The run broke off.', 'no', `${error.message}. The next run begins anew.`);
  }
  clearInterval(clock);
  state.search = null;
  $('progress').textContent = own.isStopped ? `Stopped${own.note}.` : ended || '';
  renew();
}

const objectiveOf = text => BigInt(/objective="(\d+)"/.exec(text)[1]);

// One start after another, each with its own seed, so that the best so far can be kept: the first as `solve` does it, and then one start more at a time.
function wordsOfStart(start, isFound) {
  if (start === 0) return ['solve', '1'];
  return isFound ? ['solve', '1', '--tries', '2', '--seed', String(start - 1)] : ['solve', '1', '--conflicts', '0', '--moves', '30000', '--seed', String(start)];
}

// A season that is found stays if none is at hand that the league accepts, or only dearer ones.
async function findSeason(own) {
  const starts = Math.min(Math.max(Number($('tries').value) || 1, 1), 100), files = [state.league];
  let found = null;
  for (let start = 0; start < starts && !own.isStopped; start++) {
    own.note = `, start ${start + 1} of ${starts}${state.cost === null ? '' : `, the best so far costs ${state.cost}`}`;
    const answer = await own.robin(wordsOfStart(start, found !== null), files);
    if (answer.status === 4) {
      showText(answer.text, 'refutation.log');
      say('There is no season that meets all hard demands.', 'no', 'The text below is a log that proves it. "Why is there none?" names demands that contradict each other.');
      return 'Done.';
    }
    if (answer.status !== 0 && answer.status !== 5) {
      say(refusalOf(answer), 'no', answer.told.trim());
      return '';
    }
    if (answer.status === 5) continue;
    const cost = objectiveOf(answer.text);
    if (found === null || cost < found) found = cost;
    if (state.cost === null || cost < state.cost) await setSeason(answer.bytes, 'Found.');
  }
  if (found !== null) {
    const best = `Done: the best of ${starts} ${starts === 1 ? 'start' : 'starts'} costs ${found}`;
    return state.cost !== null && state.cost < found ? `${best}. The season here costs ${state.cost}, and stays.` : `${best}.`;
  }
  if (state.cost === null) say('No season was found, and none is ruled out.', '', 'Each start spent its budget. More starts may find one; "Why is there none?" looks for a contradiction.');
  return state.cost === null ? 'Done.' : 'Done: no start found a season. The one here stays.';
}

async function proveLeast(own) {
  const answer = await own.robin(['prove', '1', '2'], filesNow());
  if (answer.status === 9) {
    await setSeason(answer.bytes, 'A cheaper season.');
    return 'Ask again: there may be a still cheaper one.';
  }
  showText(answer.text, answer.status === 0 ? 'least.log' : 'answer.txt');
  if (answer.status === 0) say(`No accepted season costs less than ${answer.text.split(/\s/)[1]}.`, 'yes', 'The text below is a certificate that proves it.');
  else if (answer.status === 1) say('The season is not accepted, so there is nothing to compare.', 'no', 'The text below is its report.');
  else if (answer.status === 5) {
    const [, cost, floor] = answer.text.match(/^objective (\d+)\nbound (\d+)\n/);
    if (floor === '0') say('Neither a cheaper season was found nor a proof that there is none.', '', 'The budget is spent.');
    else say(`This season costs ${cost}, and none costs less than ${floor}.`, '', 'The budget is spent. The text below proves the second number.');
  } else say(refusalOf(answer), 'no', answer.told.trim());
  return 'Done.';
}

async function explainLeague(own) {
  const answer = await own.robin(['explain', '1'], [state.league]);
  if (answer.status === 0) {
    if (state.cost === null) await setSeason(answer.bytes, 'There is a season.');
    else say('There is a season: the one here is accepted.', 'yes');
    return 'Done.';
  }
  showText(answer.text, 'conflict.txt');
  if (answer.status === 5) say('No contradiction was found, and no season.', '', 'The budget is spent.');
  else if (answer.status !== 4) say(refusalOf(answer), 'no', answer.told.trim());
  else await tellConflict(answer.text);
  return 'Done.';
}

// Says the members of a conflict, each in the words of `show`, or by its number alone where there are none.
async function tellConflict(text) {
  const [first, second] = text.split('\n'), members = first.split(' ').slice(1).map(Number), many = members.length > 1;
  const sentences = members.length ? await demanded(members.join(';')) : new Map();
  say(many ? 'No season meets these demands together:' : members.length ? 'No season meets this demand:' : 'No season exists, whatever is demanded.', 'no',
    `${second === 'minimal yes' && many ? 'Without any one of them the others of this list can be met. ' : ''}The text below has a log that proves it.`);
  $('members').replaceChildren(...members.map(number => itemOf(sentences.get(number) || {number, isHard: true, sum: 0n, reasons: []}, state.light && pickDemand)));
}

// How many of the games to come change, as `--near` says it behind a season: nothing without it.
function changesSaid(text) {
  const found = /<!-- changed=(\d+) of=(\d+) /.exec(text);
  return found ? ` ${found[1]} of ${found[2]} games to come change.` : '';
}

async function resumeSeason(own) {
  const played = state.played, near = $('near').checked ? ['--near'] : [];
  const answer = await own.robin(['resume', '1', '2', String(played), ...near], filesNow());
  if (answer.status === 0) {
    await setSeason(answer.bytes, `Slots 0 to ${played - 1} stay as they were played.${changesSaid(answer.text)}`);
    return 'Done.';
  }
  showText(answer.text, 'resume.log');
  if (answer.status === 4) say(`No season keeps the games of slots 0 to ${played - 1}.`, 'no', 'The text below is a log that proves it.');
  else if (answer.status === 5) say('No season was found that keeps the played games, and none is ruled out.', '', 'The budget is spent.');
  else say(refusalOf(answer), 'no', answer.told.trim());
  return 'Done.';
}

async function makeLeague(own) {
  const seed = String(Math.floor(Math.random() * 1e6)), answer = await own.robin(['make', '8', seed], []);
  if (answer.status !== 0) return '';
  Object.assign(state, {season: null, names: {}, search: null});
  setFile(answer.bytes, 'league', `${MADE}, eight teams, seed ${seed}`);
  await judge();
  return '';
}

// Saves the table that `show` writes.
async function saveTable() {
  try {
    const answer = await robin(['show', '1', '2', '--form', 'csv'], filesNow());
    if (answer.status < 2) return save('season.csv', 'text/csv', answer.bytes);
    say(refusalOf(answer), 'no', answer.told.trim());
  } catch (error) {
    say('The run broke off.', 'no', `${error.message}. The next run begins anew.`);
  }
}

// ---- the page's parts

function connect() {
  for (const kind of ['league', 'season']) {
    // A file that was changed on the disk may be chosen again.
    $(`${kind}-file`).onclick = event => { event.target.value = ''; };
    $(`${kind}-file`).onchange = event => takeFiles(event.target.files, kind);
  }
  document.ondragover = event => {
    event.preventDefault();
    document.body.classList.add('over');
  };
  document.ondragleave = event => event.relatedTarget || document.body.classList.remove('over');
  document.ondrop = event => {
    event.preventDefault();
    document.body.classList.remove('over');
    takeFiles(event.dataTransfer.files);
  };
  document.onkeydown = event => {
    if (event.key !== 'Escape') return;
    release();
    if (state.light) state.light(null);
  };
  $('made').onclick = () => search('Making a league', makeLeague);
  $('solve').onclick = () => search('Searching', findSeason);
  $('prove').onclick = () => search('Looking for a cheaper season or a proof', proveLeast);
  $('explain').onclick = () => search('Looking for a contradiction', explainLeague);
  $('resume').onclick = () => search('Planning the rest', resumeSeason);
  $('stop').onclick = () => state.search && state.search.stop();
  $('put-away').onclick = putAway;
  $('save-league').onclick = () => save('league.xml', 'application/xml', state.league);
  $('save-xml').onclick = () => save('season.xml', 'application/xml', state.season);
  $('save-csv').onclick = saveTable;
  $('save-text').onclick = () => save(state.textName, 'text/plain', state.text);
  $('save-calendar').onclick = () => {
    const team = $('calendar-team').value, first = $('calendar-first').value;
    if (!$('calendar-first').reportValidity()) return;
    save('season.ics', 'text/calendar', calendarOf(state.view, state.games, team === '' ? null : Number(team), first, Math.max(1, Number($('calendar-step').value) || 7)));
  };
  $('print').onclick = () => window.print();
}

async function begin() {
  connect();
  if (!isAble) {
    $('lacking').textContent = 'This browser can\'t run robin: WebAssembly with a memory of 64-bit addresses is lacking. Chrome and Edge have it from version 133 on, Firefox from 134 on.';
    $('lacking').hidden = false;
    for (const name of ['league-file', 'season-file', 'made']) $(name).disabled = true;
    return;
  }
  const names = ['league', 'season'].map(readGiven).filter(name => name !== null);
  try {
    $('version').textContent = (await robin(['--version'], [])).text.trim();
  } catch (error) {
    return say('robin didn\'t start.', 'no', error.message);
  }
  if (names.length) await judge();
}
const begun = begin();
